// Two threads take two monitors crosswise, each once the other has its first one: all wait for ever, and the run is stuck.
class CrosswiseMonitors {
    static class Flag {
        boolean set;

        synchronized void set() {
            set = true;
        }

        synchronized boolean isSet() {
            return set;
        }
    }

    static class Taker extends Thread {
        final Object first;
        final Object second;
        final Flag mine;
        final Flag others;

        Taker(Object first, Object second, Flag mine, Flag others) {
            this.first = first;
            this.second = second;
            this.mine = mine;
            this.others = others;
        }

        public void run() {
            synchronized (first) {
                mine.set();
                while (!others.isSet()) {
                }
                synchronized (second) {
                    System.out.println("both");
                }
            }
        }
    }

    public static void main(String[] args) throws InterruptedException {
        Object a = new Object();
        Object b = new Object();
        Flag one = new Flag();
        Flag other = new Flag();
        Taker forward = new Taker(a, b, one, other);
        Taker backward = new Taker(b, a, other, one);
        forward.start();
        backward.start();
        System.out.println("waiting");
        forward.join();
        System.out.println("over");
    }
}
