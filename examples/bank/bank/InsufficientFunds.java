package bank;

/** An account holds less than is to be taken from it. */
public class InsufficientFunds extends Exception {
    private final long missing;

    public InsufficientFunds(String owner, long missing) {
        super(owner + " lacks " + missing);
        this.missing = missing;
    }

    public long missing() {
        return missing;
    }
}
