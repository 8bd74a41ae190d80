// Six ways to sort the same numbers, each with the same outcome, and how many comparisons each takes.
class Sorting {
    static long compared;

    static boolean less(int a, int b) {
        compared++;
        return a < b;
    }

    static void swap(int[] a, int i, int j) {
        int kept = a[i];
        a[i] = a[j];
        a[j] = kept;
    }

    static void bubble(int[] a) {
        for (int end = a.length; end > 1; end--) {
            for (int i = 1; i < end; i++) {
                if (less(a[i], a[i - 1])) swap(a, i, i - 1);
            }
        }
    }

    static void insertion(int[] a) {
        for (int i = 1; i < a.length; i++) {
            for (int j = i; j > 0 && less(a[j], a[j - 1]); j--) swap(a, j, j - 1);
        }
    }

    static void selection(int[] a) {
        for (int i = 0; i < a.length; i++) {
            int least = i;
            for (int j = i + 1; j < a.length; j++) {
                if (less(a[j], a[least])) least = j;
            }
            swap(a, i, least);
        }
    }

    static void quick(int[] a, int from, int to) {
        if (to - from < 2) return;
        int pivot = a[(from + to) / 2];
        int i = from;
        int j = to - 1;
        while (i <= j) {
            while (less(a[i], pivot)) i++;
            while (less(pivot, a[j])) j--;
            if (i <= j) swap(a, i++, j--);
        }
        quick(a, from, j + 1);
        quick(a, i, to);
    }

    static void merge(int[] a, int from, int to) {
        if (to - from < 2) return;
        int middle = (from + to) / 2;
        merge(a, from, middle);
        merge(a, middle, to);
        int[] out = new int[to - from];
        for (int i = from, j = middle, k = 0; k < out.length; k++) {
            out[k] = j == to || i < middle && !less(a[j], a[i]) ? a[i++] : a[j++];
        }
        for (int k = 0; k < out.length; k++) a[from + k] = out[k];
    }

    static void heap(int[] a) {
        for (int i = a.length / 2; i >= 0; i--) sink(a, i, a.length);
        for (int end = a.length - 1; end > 0; end--) {
            swap(a, 0, end);
            sink(a, 0, end);
        }
    }

    static void sink(int[] a, int i, int end) {
        for (int child = 2 * i + 1; child < end; child = 2 * i + 1) {
            if (child + 1 < end && less(a[child], a[child + 1])) child++;
            if (!less(a[i], a[child])) return;
            swap(a, i, child);
            i = child;
        }
    }

    public static void main(String[] args) {
        for (int way = 0; way < 6; way++) {
            int[] a = new int[60];
            int seed = 5;
            for (int i = 0; i < a.length; i++) {
                seed = seed * 69069 + 1;
                a[i] = seed >> 20;
            }
            compared = 0;
            switch (way) {
                case 0: bubble(a); break;
                case 1: insertion(a); break;
                case 2: selection(a); break;
                case 3: quick(a, 0, a.length); break;
                case 4: merge(a, 0, a.length); break;
                default: heap(a);
            }
            long mixed = 0;
            for (int i = 0; i < a.length; i++) {
                mixed = mixed * 31 + a[i];
                if (i > 0 && a[i] < a[i - 1]) System.out.println("not sorted at " + i);
            }
            System.out.println(way + " " + compared + " " + a[0] + " " + a[59] + " " + mixed);
        }
    }
}
