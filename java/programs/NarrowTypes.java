// Values in byte, short, char and boolean places are narrowed.
class NarrowTypes {
    static byte b;
    static short s;
    static char c;
    static boolean z;
    byte fb;
    short fs;
    char fc;
    boolean fz;

    static byte toByte(int n) {
        return (byte) n;
    }

    static short toShort(int n) {
        return (short) n;
    }

    static int charCode(int n) {
        return (char) n;
    }

    public static void main(String[] args) {
        int[] values = {0, 127, 128, 255, 256, -1, -129, 32767, 32768, 65535, 65536, 1000000, -2147483648};
        NarrowTypes o = new NarrowTypes();
        byte[] bs = new byte[1];
        short[] ss = new short[1];
        char[] cs = new char[1];
        for (int n : values) {
            System.out.println(n + " " + toByte(n) + " " + toShort(n) + " " + charCode(n));
            b = (byte) n;
            s = (short) n;
            c = (char) n;
            z = n > 0;
            o.fb = (byte) (n + 1);
            o.fs = (short) (n + 1);
            o.fc = (char) (n + 1);
            o.fz = !z;
            bs[0] = (byte) (n * 3);
            ss[0] = (short) (n * 3);
            cs[0] = (char) (n * 3);
            System.out.println(b + " " + s + " " + (int) c + " " + z);
            System.out.println(o.fb + " " + o.fs + " " + (int) o.fc + " " + o.fz);
            System.out.println(bs[0] + " " + ss[0] + " " + (int) cs[0]);
        }
        b = 100;
        b += 100;
        s = 32000;
        s *= 2;
        c = 0;
        c--;
        System.out.println(b + " " + s + " " + (int) c);
        long l = 0x123456789abcdefL;
        System.out.println((byte) l + " " + (short) l + " " + (int) (char) l + " " + (int) l);
    }
}
