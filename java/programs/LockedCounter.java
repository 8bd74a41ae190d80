// Threads that count by synchronized methods and blocks, one of them nested: no count is lost.
class LockedCounter {
    static class Counter {
        int count;

        synchronized void add(int by) {
            count += by;
        }

        void addTwice(int by) {
            synchronized (this) {
                add(by);
                synchronized (this) {
                    add(by);
                }
            }
        }
    }

    static int steps;

    static synchronized void step() {
        steps++;
    }

    static class Adder extends Thread {
        final Counter counter;
        final int times;

        Adder(Counter counter, int times) {
            this.counter = counter;
            this.times = times;
        }

        public void run() {
            for (int i = 0; i < times; i++) {
                counter.addTwice(1);
                step();
            }
        }
    }

    public static void main(String[] args) throws InterruptedException {
        Counter counter = new Counter();
        Adder[] adders = new Adder[5];
        for (int a = 0; a < adders.length; a++) {
            adders[a] = new Adder(counter, 20 + 10 * a);
            adders[a].start();
        }
        for (Adder adder : adders) {
            adder.join();
        }
        System.out.println(counter.count + " in " + steps + " steps");
    }
}
