// Two threads end by throwables that nobody catches; the others go on, and the run ends by the first thread of the two.
class UncaughtInThread {
    static class Failing extends Thread {
        final int[] values;

        Failing(int[] values) {
            this.values = values;
        }

        public void run() {
            values[values.length]++;
        }
    }

    static class Dividing extends Thread {
        int by;

        public void run() {
            by = 1 / by;
        }
    }

    public static void main(String[] args) throws InterruptedException {
        Thread waiting = new Thread();
        Dividing dividing = new Dividing();
        Failing failing = new Failing(new int[3]);
        waiting.start();
        waiting.join();
        dividing.start();
        failing.start();
        failing.join();
        dividing.join();
        System.out.println("main goes on");
    }
}
