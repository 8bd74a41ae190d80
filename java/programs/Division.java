// Division and remainder: corner cases, and a zero divisor of each of the four instructions.
class Division {
    static int caught;

    static int quotient(int a, int b) {
        try {
            return a / b;
        } catch (ArithmeticException e) {
            caught++;
            return -999;
        }
    }

    static int rest(int a, int b) {
        try {
            return a % b;
        } catch (ArithmeticException e) {
            caught++;
            return -999;
        }
    }

    static long quotient(long a, long b) {
        try {
            return a / b;
        } catch (ArithmeticException e) {
            caught++;
            return -999;
        }
    }

    static long rest(long a, long b) {
        try {
            return a % b;
        } catch (ArithmeticException e) {
            caught++;
            return -999;
        }
    }

    public static void main(String[] args) {
        int[] ints = {7, -7, 0, 3, -3, 1, -1, 2147483647, -2147483648};
        for (int a : ints) {
            for (int b : ints) {
                System.out.println(a + " / " + b + " = " + quotient(a, b) + " rest " + rest(a, b));
            }
        }
        long[] longs = {9, -9, 0, 4, -1, 9223372036854775807L, -9223372036854775808L};
        for (long a : longs) {
            for (long b : longs) {
                System.out.println(a + " / " + b + " = " + quotient(a, b) + " rest " + rest(a, b));
            }
        }
        System.out.println(caught);
    }
}
