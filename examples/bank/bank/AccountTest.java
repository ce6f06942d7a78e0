package bank;

/** Tests that touch nothing but their own objects. */
public class AccountTest {
    private Account account;

    public void setUp() {
        account = new Account("Ada");
        account.deposit(1000);
    }

    public void testDeposit() {
        account.deposit(250);
        Check.equal(1250, account.balance());
    }

    public void testWithdraw() throws InsufficientFunds {
        account.withdraw(400);
        Check.equal(600, account.balance());
    }

    public void testOverdrawn() {
        try {
            account.withdraw(1500);
        } catch (InsufficientFunds e) {
            Check.equal(500, e.missing());
            Check.equal("Ada lacks 500", e.getMessage());
            return;
        }
        throw new AssertionError();
    }

    public void testNothingDeposited() {
        account.deposit(0);
    }

    public void testInterest() {
        Savings savings = new Savings("Ida", 250);
        savings.deposit(account.balance());
        savings.addInterest();
        Check.equal(1025, savings.balance());
    }
}
