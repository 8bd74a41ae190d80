// Transfers between accounts, each under the monitors of both, taken in the order of the accounts' numbers. Nobody loses money.
class LockedAccounts {
    static class Account {
        final int number;
        long balance;

        Account(int number, long balance) {
            this.number = number;
            this.balance = balance;
        }
    }

    static class Lacking extends Exception {
        final long by;

        Lacking(long by) {
            this.by = by;
        }
    }

    static void transfer(Account from, Account to, long amount) throws Lacking {
        Account first = from.number < to.number ? from : to;
        Account second = from.number < to.number ? to : from;
        synchronized (first) {
            synchronized (second) {
                // the monitors are left as the exception goes up
                if (from.balance < amount) {
                    throw new Lacking(amount - from.balance);
                }
                from.balance -= amount;
                to.balance += amount;
            }
        }
    }

    static class Clerk extends Thread {
        final Account[] accounts;
        int seed;
        int made;
        int refused;

        Clerk(Account[] accounts, int seed) {
            this.accounts = accounts;
            this.seed = seed;
        }

        int next(int bound) {
            seed = seed * 1103515245 + 12345;
            return (seed >>> 16) % bound;
        }

        public void run() {
            for (int i = 0; i < 40; i++) {
                int from = next(accounts.length);
                int to = (from + 1 + next(accounts.length - 1)) % accounts.length;
                try {
                    transfer(accounts[from], accounts[to], next(60));
                    made++;
                } catch (Lacking e) {
                    refused++;
                }
            }
        }
    }

    public static void main(String[] args) throws InterruptedException {
        Account[] accounts = new Account[6];
        for (int a = 0; a < accounts.length; a++) {
            accounts[a] = new Account(a, 100);
        }
        Clerk[] clerks = new Clerk[4];
        for (int c = 0; c < clerks.length; c++) {
            clerks[c] = new Clerk(accounts, 17 * c + 3);
            clerks[c].start();
        }
        int asked = 0;
        for (Clerk clerk : clerks) {
            clerk.join();
            asked += clerk.made + clerk.refused;
        }
        long total = 0;
        boolean inDebt = false;
        for (Account account : accounts) {
            total += account.balance;
            inDebt |= account.balance < 0;
        }
        System.out.println(asked + " asked, " + total + " in all, " + (inDebt ? "one in debt" : "nobody in debt"));
    }
}
