import autopersist.DurableRoot;
import autopersist.Region;

/**
 * Two durable accounts between which money is moved in a failure-atomic region: both are changed, or neither is, whatever stops the
 * program. Each transfer is counted in its region too.
 */
public class Transfers {
    static final class Account {
        long cents;

        Account(long cents) {
            this.cents = cents;
        }
    }

    static final class Bank {
        final Account current = new Account(30000);
        final Account savings = new Account(10000);
        int transfers;
    }

    @DurableRoot static Bank bank;

    static void transfer(Account from, Account to, long cents) {
        Region.begin();
        from.cents -= cents;
        to.cents += cents;
        bank.transfers++;
        Region.end();
    }

    static String sum() {
        return bank.transfers + " transfers, sum " + (bank.current.cents + bank.savings.cents);
    }

    public static void main(String[] args) {
        if (bank == null) {
            bank = new Bank();
        }
        System.out.println("begins with " + sum());
        for (int i = 0; i < 50; i++) {
            if (bank.transfers % 2 == 0) {
                transfer(bank.current, bank.savings, 700 + bank.transfers);
            } else {
                transfer(bank.savings, bank.current, 700 + bank.transfers);
            }
            System.out.println("made transfer " + bank.transfers);
        }
        System.out.println("ends with " + sum());
    }
}
