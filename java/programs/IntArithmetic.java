// int arithmetic: it wraps at 32 bits; division and remainder round towards zero.
class IntArithmetic {
    static final int[] VALUES = {0, 1, -1, 7, -7, 31, 32, 65535, 2147483647, -2147483648};

    static int mixed(int a, int b) {
        return (a + b) * (a - b) ^ (a & b) | (a << 3) - (b >> 2);
    }

    public static void main(String[] args) {
        for (int i = 0; i < VALUES.length; i++) {
            int a = VALUES[i];
            int b = VALUES[(i * 3 + 1) % VALUES.length];
            System.out.println(a + " " + b);
            System.out.println(a + b);
            System.out.println(a - b);
            System.out.println(a * b);
            if (b != 0) {
                System.out.println(a / b);
                System.out.println(a % b);
            }
            System.out.println(-a);
            System.out.println(~a);
            System.out.println(a & b);
            System.out.println(a | b);
            System.out.println(a ^ b);
            System.out.println(mixed(a, b));
        }
        int n = 2147483647;
        n++;
        System.out.println(n);
        n--;
        System.out.println(n);
        n += 1000;
        System.out.println(n);
        n -= 300000;
        System.out.println(n);
    }
}
