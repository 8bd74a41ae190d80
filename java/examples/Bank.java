/** Accounts, transfers that may fail, and a ledger that says what became of each. */
class Bank {
    static class BankException extends Exception {
        BankException(String message) {
            super(message);
        }
    }

    static final class NoSuchAccount extends BankException {
        NoSuchAccount(String owner) {
            super("nobody called " + owner);
        }
    }

    static final class Overdrawn extends BankException {
        final long missing;

        Overdrawn(Account account, long missing) {
            super(account.owner + " lacks " + amount(missing));
            this.missing = missing;
        }
    }

    abstract static class Account {
        final String owner;
        protected long balance;

        Account(String owner, long balance) {
            this.owner = owner;
            this.balance = balance;
        }

        /** How far the balance may go below zero. */
        abstract long credit();

        void endOfMonth() {}

        final void deposit(long cents) {
            if (cents <= 0) {
                throw new IllegalArgumentException("a deposit of " + amount(cents));
            }
            balance += cents;
        }

        final void withdraw(long cents) throws Overdrawn {
            if (balance - cents < -credit()) {
                throw new Overdrawn(this, cents - balance - credit());
            }
            balance -= cents;
        }

        public String toString() {
            return padded(owner, 8) + amount(balance);
        }
    }

    static final class Savings extends Account {
        private final int perThousand;

        Savings(String owner, long balance, int perThousand) {
            super(owner, balance);
            this.perThousand = perThousand;
        }

        long credit() {
            return 0;
        }

        void endOfMonth() {
            balance += balance * perThousand / 1000;
        }
    }

    static final class Current extends Account {
        Current(String owner, long balance) {
            super(owner, balance);
        }

        long credit() {
            return 50000;
        }

        void endOfMonth() {
            if (balance < 0) {
                balance -= 750;
            }
        }
    }

    private final Account[] accounts = new Account[16];
    private int count;
    private int refused;

    void open(Account account) {
        accounts[count++] = account;
    }

    Account find(String owner) throws NoSuchAccount {
        for (int i = 0; i < count; i++) {
            if (accounts[i].owner.equals(owner)) {
                return accounts[i];
            }
        }
        throw new NoSuchAccount(owner);
    }

    /** All or nothing: what was withdrawn goes back where the other side can't take it. */
    void transfer(String from, String to, long cents) throws BankException {
        Account source = find(from);
        source.withdraw(cents);
        boolean arrived = false;
        try {
            find(to).deposit(cents);
            arrived = true;
        } finally {
            if (!arrived) {
                source.balance += cents;
            }
        }
    }

    void order(String from, String to, long cents) {
        String line = padded(from, 8) + "-> " + padded(to, 8) + padded(amount(cents), 10);
        try {
            transfer(from, to, cents);
            System.out.println(line + "done");
        } catch (Overdrawn e) {
            refused++;
            System.out.println(line + "refused: " + e.getMessage());
        } catch (BankException e) {
            refused++;
            System.out.println(line + "refused: " + e.getMessage());
        } catch (IllegalArgumentException e) {
            refused++;
            System.out.println(line + "nonsense: " + e.getMessage());
        }
    }

    void show(String title) {
        System.out.println(title);
        long sum = 0;
        for (int i = 0; i < count; i++) {
            System.out.println("  " + accounts[i]);
            sum += accounts[i].balance;
        }
        System.out.println("  " + padded("total", 8) + amount(sum));
    }

    static String amount(long cents) {
        long whole = cents < 0 ? -cents : cents;
        return (cents < 0 ? "-" : "") + whole / 100 + "." + whole / 10 % 10 + whole % 10;
    }

    static String padded(String text, int width) {
        StringBuilder out = new StringBuilder(text);
        for (int i = text.length(); i < width; i++) {
            out.append(' ');
        }
        return out.toString();
    }

    public static void main(String[] args) {
        Bank bank = new Bank();
        bank.open(new Savings("ada", 120000, 3));
        bank.open(new Current("grace", 5000));
        bank.open(new Current("edsger", -20000));
        bank.show("at the beginning");
        bank.order("ada", "grace", 100000);
        bank.order("ada", "edsger", 30000);
        bank.order("grace", "edsger", 70050);
        bank.order("grace", "barbara", 1000);
        bank.order("edsger", "ada", -500);
        bank.order("edsger", "grace", 100051);
        for (int i = 0; i < bank.count; i++) {
            bank.accounts[i].endOfMonth();
        }
        bank.show("at the end of the month, " + bank.refused + " refused");
    }
}
