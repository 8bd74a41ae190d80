import autopersist.DurableRoot;
import autopersist.Region;

/**
 * Two tellers, a thread each, move money between durable accounts. Each transfer is a failure-atomic region within the bank's
 * monitor, so that no teller stores to what the other's region has changed and not ended yet; its teller counts it in the same
 * region. Whatever stops the program, the sum stays, and of each teller at most the transfer is lost that was being made.
 */
public class Tellers {
    static final class Bank {
        final long[] cents = {10000, 20000, 30000, 40000};
        final int[] made = new int[2];

        long sum() {
            long sum = 0;
            for (long each : cents) {
                sum += each;
            }
            return sum;
        }
    }

    @DurableRoot static Bank bank;

    static final class Teller extends Thread {
        final Bank bank;
        final int number;

        Teller(Bank bank, int number) {
            this.bank = bank;
            this.number = number;
        }

        void transfer(int from, int to, long amount) {
            Region.begin();
            bank.cents[from] -= amount;
            bank.cents[to] += amount;
            bank.made[number]++;
            Region.end();
        }

        public void run() {
            for (int i = 0; i < 25; i++) {
                synchronized (bank) {
                    int made = bank.made[number];
                    transfer((number + made) % 4, (number + made + 1 + made % 3) % 4, 100 + made);
                    System.out.println("teller " + number + " made transfer " + bank.made[number]);
                }
            }
        }
    }

    static String counts(Bank bank) {
        return bank.made[0] + " and " + bank.made[1] + " transfers, sum " + bank.sum();
    }

    public static void main(String[] args) throws InterruptedException {
        if (bank == null) {
            bank = new Bank();
        }
        System.out.println("begins with " + counts(bank));
        Teller first = new Teller(bank, 0);
        Teller second = new Teller(bank, 1);
        first.start();
        second.start();
        first.join();
        second.join();
        System.out.println("ends with " + counts(bank));
    }
}
