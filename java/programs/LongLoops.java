// Loops of ten thousands of turns, of ints and longs alone: about a million instructions.
class LongLoops {
    static int collatz(int most) {
        int best = 0;
        int at = 0;
        for (int n = 1; n < most; n++) {
            long m = n;
            int steps = 0;
            while (m != 1) {
                m = (m & 1) == 0 ? m / 2 : 3 * m + 1;
                steps++;
            }
            if (steps > best) {
                best = steps;
                at = n;
            }
        }
        return at * 1000 + best;
    }

    static long generator(long seed, int turns) {
        for (int i = 0; i < turns; i++) {
            seed = seed * 6364136223846793005L + 1442695040888963407L;
            seed ^= seed >>> 33;
        }
        return seed;
    }

    static int bits(int from, int to) {
        int sum = 0;
        for (int n = from; n < to; n++) {
            for (int m = n; m != 0; m &= m - 1) {
                sum++;
            }
        }
        return sum;
    }

    static int nested(int n) {
        int sum = 0;
        for (int i = 0; i < n; i++) {
            for (int j = i; j < n; j++) {
                sum += i ^ j;
            }
        }
        return sum;
    }

    public static void main(String[] args) {
        System.out.println(collatz(700));
        System.out.println(generator(42, 20000));
        System.out.println(bits(0, 2500));
        System.out.println(nested(180));
        int down = 40000;
        while (--down > 0) {
        }
        System.out.println(down);
    }
}
