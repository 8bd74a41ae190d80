// Four threads that count together, each step under one monitor.
class Turnstile extends Thread {
    static final Object gate = new Object();
    static int count;

    public void run() {
        for (int i = 0; i < 30000; i++) {
            synchronized (gate) {
                count++;
            }
        }
    }

    public static void main(String[] args) throws InterruptedException {
        Turnstile[] all = new Turnstile[4];
        for (int t = 0; t < 4; t++) {
            all[t] = new Turnstile();
            all[t].start();
        }
        for (int t = 0; t < 4; t++) {
            all[t].join();
        }
        System.out.println(count);
    }
}
