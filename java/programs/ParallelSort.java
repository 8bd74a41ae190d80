// Merge sort: a thread for each half of what is long.
class ParallelSort extends Thread {
    final int[] values;
    final int from;
    final int to;

    ParallelSort(int[] values, int from, int to) {
        this.values = values;
        this.from = from;
        this.to = to;
    }

    public void run() {
        if (to - from < 12) {
            insert();
            return;
        }
        int middle = (from + to) / 2;
        ParallelSort low = new ParallelSort(values, from, middle);
        ParallelSort high = new ParallelSort(values, middle, to);
        low.start();
        // the upper half is sorted by this thread itself
        high.run();
        try {
            low.join();
        } catch (InterruptedException e) {
            return;
        }
        merge(middle);
    }

    void insert() {
        for (int i = from + 1; i < to; i++) {
            int value = values[i];
            int at = i;
            while (at > from && values[at - 1] > value) {
                values[at] = values[at - 1];
                at--;
            }
            values[at] = value;
        }
    }

    void merge(int middle) {
        int[] merged = new int[to - from];
        int low = from;
        int high = middle;
        for (int i = 0; i < merged.length; i++) {
            boolean takesLow = high == to || low < middle && values[low] <= values[high];
            merged[i] = takesLow ? values[low++] : values[high++];
        }
        for (int i = 0; i < merged.length; i++) {
            values[from + i] = merged[i];
        }
    }

    public static void main(String[] args) throws InterruptedException {
        int[] values = new int[160];
        long seed = 88172645463325252L;
        for (int i = 0; i < values.length; i++) {
            seed ^= seed << 13;
            seed ^= seed >>> 7;
            seed ^= seed << 17;
            values[i] = (int) (seed % 1000);
        }
        ParallelSort all = new ParallelSort(values, 0, values.length);
        all.start();
        all.join();
        boolean sorted = true;
        long sum = 0;
        for (int i = 0; i < values.length; i++) {
            sorted &= i == 0 || values[i - 1] <= values[i];
            sum = sum * 31 + values[i];
        }
        System.out.println(sorted + " " + sum);
        System.out.println(values[0] + " " + values[80] + " " + values[159]);
    }
}
