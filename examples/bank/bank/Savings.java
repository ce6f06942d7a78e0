package bank;

/** An account that earns interest, in hundredths of a percent a year. */
public class Savings extends Account {
    private final int rate;

    public Savings(String owner, int rate) {
        super(owner);
        this.rate = rate;
    }

    public void addInterest() {
        long interest = balance() * rate / 10000;
        if (interest > 0) {
            deposit(interest);
        }
    }
}
