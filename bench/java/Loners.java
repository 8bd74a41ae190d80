// Four threads that only reckon: each makes private instructions on ints alone, fifteen a turn of its loop, and one store at the end.
class Loners extends Thread {
    int sum;

    public void run() {
        int all = 0;
        for (int i = 0; i < 6700000; i++) {
            all = all * 31 + (i ^ all >>> 7);
        }
        sum = all;
    }

    public static void main(String[] args) throws InterruptedException {
        Loners[] all = new Loners[4];
        for (int t = 0; t < 4; t++) {
            all[t] = new Loners();
            all[t].start();
        }
        int sum = 0;
        for (int t = 0; t < 4; t++) {
            all[t].join();
            sum += all[t].sum;
        }
        System.out.println(sum);
    }
}
