// Objects in lists: a queue of customers that is filled, reversed, split by a virtual call and counted.
class Lists {
    abstract static class Customer {
        final int number;
        Customer next;

        Customer(int number) {
            this.number = number;
        }

        abstract boolean waits(int turn);
    }

    static final class Patient extends Customer {
        Patient(int number) {
            super(number);
        }

        boolean waits(int turn) {
            return number + turn < 1000;
        }
    }

    static final class Hasty extends Customer {
        private int asked;

        Hasty(int number) {
            super(number);
        }

        boolean waits(int turn) {
            asked++;
            return asked < number % 7;
        }
    }

    static Customer reversed(Customer list) {
        Customer done = null;
        while (list != null) {
            Customer next = list.next;
            list.next = done;
            done = list;
            list = next;
        }
        return done;
    }

    static int length(Customer list) {
        int length = 0;
        for (Customer c = list; c != null; c = c.next) {
            length++;
        }
        return length;
    }

    public static void main(String[] args) {
        long sum = 0;
        for (int day = 0; day < 24; day++) {
            Customer queue = null;
            for (int i = 0; i < 1500; i++) {
                Customer c = i % 3 == 0 ? new Hasty(i) : new Patient(i);
                c.next = queue;
                queue = c;
            }
            for (int turn = 0; turn < 4; turn++) {
                queue = reversed(queue);
                Customer kept = null;
                while (queue != null) {
                    Customer c = queue;
                    queue = c.next;
                    if (c.waits(turn * 300)) {
                        c.next = kept;
                        kept = c;
                    } else {
                        sum += c.number;
                    }
                }
                queue = kept;
                sum = sum * 31 + length(queue);
            }
        }
        System.out.println(sum);
    }
}
