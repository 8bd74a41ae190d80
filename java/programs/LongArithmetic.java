// long arithmetic: it wraps at 64 bits; widening keeps the sign, narrowing keeps the low bits.
class LongArithmetic {
    static final long[] VALUES = {
        0, 1, -1, 1000000007L, -1000000007L, 4294967296L, 9223372036854775807L, -9223372036854775808L
    };

    static long power(long base, int exponent) {
        long result = 1;
        while (exponent > 0) {
            if ((exponent & 1) == 1) {
                result *= base;
            }
            base *= base;
            exponent >>= 1;
        }
        return result;
    }

    public static void main(String[] args) {
        for (int i = 0; i < VALUES.length; i++) {
            long a = VALUES[i];
            long b = VALUES[(i + 3) % VALUES.length];
            System.out.println(a + " " + b);
            System.out.println(a + b);
            System.out.println(a - b);
            System.out.println(a * b);
            if (b != 0) {
                System.out.println(a / b);
                System.out.println(a % b);
            }
            System.out.println(-a);
            System.out.println(~a);
            System.out.println((a & b) + " " + (a | b) + " " + (a ^ b));
            System.out.println((int) a);
        }
        System.out.println(power(3, 40));
        System.out.println(power(7, 100));
        power(2, 10);
        int small = -5;
        long wide = small;
        System.out.println(wide * small);
        System.out.println(wide);
    }
}
