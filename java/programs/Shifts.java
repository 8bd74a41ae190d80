// Shift counts are taken by their low 5 bits for int, 6 for long.
class Shifts {
    static final int[] COUNTS = {0, 1, 5, 31, 32, 33, 63, 64, 65, -1, -33, 1000};

    public static void main(String[] args) {
        int i = -1234567891;
        long l = -1234567890123456789L;
        for (int count : COUNTS) {
            System.out.print(count);
            System.out.print(':');
            System.out.print(' ');
            System.out.print(i << count);
            System.out.print(' ');
            System.out.print(i >> count);
            System.out.print(' ');
            System.out.print(i >>> count);
            System.out.print(' ');
            System.out.print(l << count);
            System.out.print(' ');
            System.out.print(l >> count);
            System.out.print(' ');
            System.out.println(l >>> count);
        }
        long count = 67;
        System.out.println(1 << count);
        System.out.println(1L << count);
        i >>>= 28;
        l >>>= 60;
        System.out.println(i + " " + l);
        byte b = -8;
        b >>>= 1;
        System.out.println(b);
        short s = 0x7fff;
        s <<= 1;
        System.out.println(s);
    }
}
