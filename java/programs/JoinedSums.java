// Four threads sum a quarter of an array each; whoever joins a thread sees all that it stored (JLS 17.4.5).
class JoinedSums {
    static class Part extends Thread {
        final int[] values;
        final int from;
        final int to;
        long sum;

        Part(int[] values, int from, int to) {
            this.values = values;
            this.from = from;
            this.to = to;
        }

        public void run() {
            for (int i = from; i < to; i++) {
                sum += (long) values[i] * values[i];
            }
        }
    }

    public static void main(String[] args) throws InterruptedException {
        int[] values = new int[400];
        for (int i = 0; i < values.length; i++) {
            values[i] = i * 7 - 900;
        }
        Part[] parts = new Part[4];
        for (int p = 0; p < parts.length; p++) {
            parts[p] = new Part(values, p * 100, p * 100 + 100);
            parts[p].start();
        }
        long total = 0;
        for (int p = parts.length - 1; p >= 0; p--) {
            parts[p].join();
            System.out.println("part " + p + ": " + parts[p].sum);
            total += parts[p].sum;
        }
        // a second join returns at once
        parts[0].join();
        System.out.println("total " + total);
    }
}
