// A run has at most 64 threads in all: the 64th that is started ends it.
class TooManyThreads {
    public static void main(String[] args) throws InterruptedException {
        for (int n = 1; n < 70; n++) {
            Thread thread = new Thread();
            thread.start();
            thread.join();
            if (n % 21 == 0) {
                System.out.println(n);
            }
        }
    }
}
