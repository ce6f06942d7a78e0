package bank;

/** Accounts in the order in which they were opened. */
public class Bank {
    private Account[] accounts = new Account[2];
    private int count;

    public Account open(Account account) {
        if (count == accounts.length) {
            Account[] more = new Account[2 * count];
            for (int i = 0; i < count; i++) {
                more[i] = accounts[i];
            }
            accounts = more;
        }
        accounts[count++] = account;
        return account;
    }

    public Account find(String owner) {
        for (int i = 0; i < count; i++) {
            if (accounts[i].owner().equals(owner)) {
                return accounts[i];
            }
        }
        return null;
    }

    /** Takes the amount from one account and gives it to the other, or leaves both as they were. */
    public void transfer(String from, String to, long amount) throws InsufficientFunds {
        Account source = known(from);
        Account target = known(to);
        source.withdraw(amount);
        target.deposit(amount);
    }

    private Account known(String owner) {
        Account account = find(owner);
        if (account == null) {
            throw new IllegalStateException("no account of " + owner);
        }
        return account;
    }

    public long total() {
        long sum = 0;
        for (int i = 0; i < count; i++) {
            sum += accounts[i].balance();
        }
        return sum;
    }
}
