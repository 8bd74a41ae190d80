// An array of longs sorted by quicksort, then by merging what two halves give, then looked up in.
class Sorts {
    static void quick(long[] a, int from, int to) {
        while (to - from > 1) {
            long pivot = a[from + to >>> 1];
            int i = from;
            int j = to - 1;
            while (i <= j) {
                while (a[i] < pivot) {
                    i++;
                }
                while (a[j] > pivot) {
                    j--;
                }
                if (i <= j) {
                    long kept = a[i];
                    a[i++] = a[j];
                    a[j--] = kept;
                }
            }
            quick(a, from, j + 1);
            from = i;
        }
    }

    static long[] merged(long[] a, long[] b) {
        long[] out = new long[a.length + b.length];
        int i = 0;
        int j = 0;
        for (int k = 0; k < out.length; k++) {
            out[k] = j == b.length || i < a.length && a[i] <= b[j] ? a[i++] : b[j++];
        }
        return out;
    }

    static int find(long[] a, long key) {
        int low = 0;
        int high = a.length;
        while (low < high) {
            int middle = low + high >>> 1;
            if (a[middle] < key) {
                low = middle + 1;
            } else {
                high = middle;
            }
        }
        return low;
    }

    public static void main(String[] args) {
        long seed = 1;
        long[][] halves = new long[2][];
        for (int h = 0; h < 2; h++) {
            halves[h] = new long[9000];
            for (int i = 0; i < halves[h].length; i++) {
                seed = seed * 6364136223846793005L + 1442695040888963407L;
                halves[h][i] = seed >> 20;
            }
            quick(halves[h], 0, halves[h].length);
        }
        long[] all = merged(halves[0], halves[1]);
        long sum = 0;
        for (int i = 0; i < 3000; i++) {
            sum = sum * 31 + find(all, halves[i & 1][i]);
        }
        System.out.println(sum + " " + all[0] + " " + all[all.length - 1]);
    }
}
