import autopersist.DurableRoot;

/**
 * A bank whose transfers are whole or not there, whatever stops it: a transfer is an object that never changes, and one store to the
 * durable root adds it. Balances are what the transfers come to, so the sum of all accounts is always the same.
 */
public class Ledger {
    static final class Transfer {
        final int from;
        final int to;
        final long cents;
        final Transfer before;

        Transfer(int from, int to, long cents, Transfer before) {
            this.from = from;
            this.to = to;
            this.cents = cents;
            this.before = before;
        }
    }

    static final class Overdrawn extends Exception {
        Overdrawn(int account) {
            super("account " + account);
        }
    }

    static final int ACCOUNTS = 4;
    static final long FIRST = 10000;

    @DurableRoot static Transfer last;

    /** The balances by now, in volatile memory: made anew from the ledger whenever the program begins. */
    static long[] balances;

    static int replay() {
        balances = new long[ACCOUNTS];
        for (int account = 0; account < ACCOUNTS; account++) {
            balances[account] = FIRST;
        }
        int count = 0;
        for (Transfer transfer = last; transfer != null; transfer = transfer.before) {
            balances[transfer.from] -= transfer.cents;
            balances[transfer.to] += transfer.cents;
            count++;
        }
        return count;
    }

    static void transfer(int from, int to, long cents) throws Overdrawn {
        if (balances[from] < cents) {
            throw new Overdrawn(from);
        }
        last = new Transfer(from, to, cents, last);
        balances[from] -= cents;
        balances[to] += cents;
    }

    static String amount(long cents) {
        String part = "" + cents % 100;
        return cents / 100 + "." + (part.length() < 2 ? "0" + part : part);
    }

    static long sum() {
        long sum = 0;
        for (int account = 0; account < ACCOUNTS; account++) {
            sum += balances[account];
        }
        return sum;
    }

    public static void main(String[] args) {
        int count = replay();
        System.out.println("begins with " + count + " transfers, sum " + amount(sum()));
        int seed = 17 + count;
        int refused = 0;
        for (int i = 0; i < 20; i++) {
            seed = seed * 1103515245 + 12345;
            int from = (seed >>> 16) % ACCOUNTS;
            int to = (from + 1 + (seed >>> 20) % (ACCOUNTS - 1)) % ACCOUNTS;
            long cents = (seed >>> 8) % 5000 + 1;
            try {
                transfer(from, to, cents);
                System.out.println("made transfer " + ++count);
            } catch (Overdrawn overdrawn) {
                refused++;
            }
        }
        for (int account = 0; account < ACCOUNTS; account++) {
            System.out.println("account " + account + " has " + amount(balances[account]));
        }
        System.out.println("ends with " + count + " transfers, sum " + amount(sum()) + ", refused " + refused);
    }
}
