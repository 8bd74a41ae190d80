// Recursion: deep, mutual, branching, over longs and with texts.
class Recursion {
    static int moves;

    static int depth(int n) {
        return n == 0 ? 0 : 1 + depth(n - 1);
    }

    static boolean even(int n) {
        return n == 0 || odd(n - 1);
    }

    static boolean odd(int n) {
        return n != 0 && even(n - 1);
    }

    static int ackermann(int m, int n) {
        if (m == 0) {
            return n + 1;
        }
        return n == 0 ? ackermann(m - 1, 1) : ackermann(m - 1, ackermann(m, n - 1));
    }

    static long fibonacci(int n) {
        return n < 2 ? n : fibonacci(n - 1) + fibonacci(n - 2);
    }

    static void hanoi(int n, char from, char to, char by) {
        if (n > 0) {
            hanoi(n - 1, from, by, to);
            moves++;
            if (n == 4) {
                System.out.println(from + " to " + to);
            }
            hanoi(n - 1, by, to, from);
        }
    }

    static String binary(long n) {
        return n < 2 ? "" + n : binary(n / 2) + n % 2;
    }

    static int divisor(int a, int b) {
        return b == 0 ? a : divisor(b, a % b);
    }

    int level(Recursion other, int n) {
        return n <= 0 ? 0 : 1 + other.level(this, n - 1);
    }

    public static void main(String[] args) {
        System.out.println(depth(5000));
        System.out.println(even(1000) + " " + odd(777) + " " + even(777));
        System.out.println(ackermann(2, 9) + " " + ackermann(3, 3));
        System.out.println(fibonacci(20));
        hanoi(8, 'a', 'b', 'c');
        System.out.println(moves);
        System.out.println(binary(1L << 40) + " " + binary(1234567890123456789L));
        System.out.println(divisor(1071, 462) + " " + divisor(832040, 514229));
        System.out.println(new Recursion().level(new Recursion(), 3000));
    }
}
