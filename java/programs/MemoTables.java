// Numbers of combinations, partitions and steps, each worked out once and kept in arrays of longs.
class MemoTables {
    static final long[] STEPS = new long[100];
    static final long[][] PARTITIONS = new long[61][];
    static int asked;

    static long steps(int n) {
        asked++;
        if (n <= 1) {
            return 1;
        }
        if (STEPS[n] == 0) {
            STEPS[n] = steps(n - 1) + steps(n - 2);
        }
        return STEPS[n];
    }

    static long partitions(int n, int most) {
        if (n == 0) {
            return 1;
        }
        if (n < 0 || most == 0) {
            return 0;
        }
        if (PARTITIONS[n] == null) {
            PARTITIONS[n] = new long[61];
        }
        if (PARTITIONS[n][most] == 0) {
            PARTITIONS[n][most] = 1 + partitions(n, most - 1) + partitions(n - most, most);
        }
        return PARTITIONS[n][most] - 1;
    }

    static long choose(int n, int k) {
        long result = 1;
        for (int i = 1; i <= k; i++) {
            result = result * (n - k + i) / i;
        }
        return result;
    }

    static long catalan(int n) {
        return choose(2 * n, n) / (n + 1);
    }

    public static void main(String[] args) {
        System.out.println(steps(90) + " " + asked);
        System.out.println(partitions(10, 10) + " " + partitions(60, 60));
        System.out.println(choose(60, 30) + " " + choose(5, 0));
        StringBuilder line = new StringBuilder();
        for (int n = 0; n < 20; n++) {
            line.append(catalan(n)).append(' ');
        }
        System.out.println(line.toString());
    }
}
