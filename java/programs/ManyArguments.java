// Arguments of one and two cells in every order, to static methods, constructors, interfaces and superclasses.
class ManyArguments {
    interface Mixes {
        long mix(long a, int b, long[] c, byte d, long e, boolean f, Object g, char h);
    }

    static class Base {
        final long first;
        final String text;

        Base(int a, long b, String c, long d, short e) {
            first = a + b * 10 + d * 100 + e * 1000;
            text = c;
        }

        long mix(long a, int b, long[] c, byte d, long e, boolean f, Object g, char h) {
            return first + a + b + c[0] + d + e + (f ? 1 : 0) + (g == this ? 5 : 0) + h;
        }
    }

    static class Sub extends Base implements Mixes {
        Sub(long b, int a) {
            super(a, b, "sub", b + 1, (short) (a + 1));
        }

        public long mix(long a, int b, long[] c, byte d, long e, boolean f, Object g, char h) {
            return -super.mix(e, d, c, (byte) b, a, !f, this, (char) (h + 1));
        }
    }

    static String show(boolean z, byte b, char c, short s, int i, long j, String t, Object o, int[] a) {
        z = !z;
        b++;
        c++;
        s++;
        i++;
        j++;
        a[0]++;
        return z + " " + b + " " + c + " " + s + " " + i + " " + j + " " + t + " " + (o == a) + " " + a[0];
    }

    static long twelve(long a, long b, long c, long d, long e, long f, long g, long h, long i, long j, long k, long l) {
        return a - b + c - d + e - f + g - h + i - j + k * l;
    }

    static long swapped(long a, int b) {
        return b == 0 ? a : swapped(b, (int) a - 1);
    }

    public static void main(String[] args) {
        int[] a = {41};
        System.out.println(show(true, (byte) 127, 'x', (short) 32767, 2147483647, 9223372036854775807L, "t", a, a));
        System.out.println(a[0]);
        Sub sub = new Sub(3, 4);
        Mixes face = sub;
        Base base = sub;
        long[] longs = {1L << 50};
        System.out.println(sub.first + " " + sub.text);
        System.out.println(face.mix(1, 2, longs, (byte) 3, 1L << 40, true, sub, 'a'));
        System.out.println(base.mix(-1, -2, longs, (byte) -3, -(1L << 40), false, null, 'b'));
        System.out.println(twelve(1, 2L << 33, 3, 4, 5, 6L << 40, 7, 8, 9, 10, 11, 12));
        System.out.println(swapped(9, 4));
    }
}
