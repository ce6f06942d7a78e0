package bank;

import electric.Files;

/** Tests of one bank that all of them share, and of a journal in a file. */
public class BankTest {
    static Bank bank;

    public void setUp() {
        if (bank == null) {
            bank = new Bank();
        }
    }

    public void tearDown() {
        Files.append("journal", bank.total() + "\n");
    }

    public void testOpen() {
        bank.open(new Account("Ada")).deposit(500);
        bank.open(new Account("Ben")).deposit(300);
        bank.open(new Savings("Cleo", 100)).deposit(200);
        Check.equal(1000, bank.total());
    }

    public void testTransfer() throws InsufficientFunds {
        bank.transfer("Ada", "Cleo", 120);
        Check.equal(380, bank.find("Ada").balance());
        Check.equal(320, bank.find("Cleo").balance());
        Check.equal(1000, bank.total());
    }

    public void testTransferToNobody() throws InsufficientFunds {
        bank.transfer("Ada", "Dan", 1);
    }

    public void testJournal() {
        Check.equal("1000\n1000\n1000\n", Files.read("journal"));
    }
}
