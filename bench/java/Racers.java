// Four threads that share nothing: each turn reads two fields of the thread's own object and stores two.
class Racers extends Thread {
    int sum;
    int last;

    public void run() {
        for (int i = 0; i < 45000; i++) {
            sum += i;
            last = sum;
        }
    }

    public static void main(String[] args) throws InterruptedException {
        Racers[] all = new Racers[4];
        for (int t = 0; t < 4; t++) {
            all[t] = new Racers();
            all[t].start();
        }
        int sum = 0;
        for (int t = 0; t < 4; t++) {
            all[t].join();
            sum += all[t].last;
        }
        System.out.println(sum);
    }
}
