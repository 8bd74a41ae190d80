// Five philosophers with five forks, each taking the fork of the lesser number first: nobody starves, and no two eat with one fork.
class Philosophers {
    static class Fork {
        final int number;
        boolean taken;
        int uses;

        Fork(int number) {
            this.number = number;
        }
    }

    static class Philosopher extends Thread {
        final Fork first;
        final Fork second;
        int eaten;
        boolean shared;

        Philosopher(Fork left, Fork right) {
            first = left.number < right.number ? left : right;
            second = left.number < right.number ? right : left;
        }

        public void run() {
            for (int meal = 0; meal < 12; meal++) {
                synchronized (first) {
                    synchronized (second) {
                        shared |= first.taken | second.taken;
                        first.taken = true;
                        second.taken = true;
                        first.uses++;
                        second.uses++;
                        eaten++;
                        first.taken = false;
                        second.taken = false;
                    }
                }
            }
        }
    }

    public static void main(String[] args) throws InterruptedException {
        Fork[] forks = new Fork[5];
        for (int f = 0; f < forks.length; f++) {
            forks[f] = new Fork(f);
        }
        Philosopher[] table = new Philosopher[5];
        for (int p = 0; p < table.length; p++) {
            table[p] = new Philosopher(forks[p], forks[(p + 1) % 5]);
            table[p].start();
        }
        boolean shared = false;
        for (Philosopher philosopher : table) {
            philosopher.join();
            shared |= philosopher.shared;
            System.out.print(philosopher.eaten + " ");
        }
        System.out.println();
        for (Fork fork : forks) {
            System.out.print(fork.uses + " ");
        }
        System.out.println();
        System.out.println(shared ? "two with one fork" : "each fork with one");
    }
}
