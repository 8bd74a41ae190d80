// Three threads use a class for the first time: one initialises it, and the others wait for that (JVMS 5.5).
class ContendedInit {
    static int[] begun = new int[1];

    static class Table {
        static final int[] SQUARES;

        static {
            synchronized (begun) {
                begun[0]++;
            }
            int[] squares = new int[50];
            for (int i = 0; i < squares.length; i++) {
                squares[i] = i * i;
            }
            SQUARES = squares;
        }

        static int square(int i) {
            return SQUARES[i];
        }
    }

    // its initialiser needs that of Odd, which needs that of Table
    static class Even {
        static int first = Table.square(2);
        static int sum = first + Odd.first;
    }

    static class Odd {
        static int first = Table.square(3);
    }

    static class User extends Thread {
        final int of;
        int got;

        User(int of) {
            this.of = of;
        }

        public void run() {
            got = Table.square(of) + Even.sum;
        }
    }

    public static void main(String[] args) throws InterruptedException {
        User[] users = new User[3];
        for (int u = 0; u < users.length; u++) {
            users[u] = new User(10 + u);
            users[u].start();
        }
        for (User user : users) {
            user.join();
            System.out.println(user.of + ": " + user.got);
        }
        System.out.println("initialised " + begun[0] + " time");
    }
}
