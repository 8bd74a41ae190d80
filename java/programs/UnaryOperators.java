// ++, --, -, ~ and the assignments with an operator, on locals, fields, statics and elements of every kind.
class UnaryOperators {
    static byte sb = 127;
    static long sl = -1;
    static char sc = 'a';
    short fs = -32768;
    int fi = 10;
    long fl = 1L << 62;

    public static void main(String[] args) {
        UnaryOperators o = new UnaryOperators();
        System.out.println(sb++ + " " + sb + " " + --sb + " " + sb);
        System.out.println(sl++ + " " + sl + " " + ++sl);
        System.out.println(sc++ + " " + sc + " " + --sc);
        System.out.println(o.fs-- + " " + o.fs);
        System.out.println(o.fi++ * ++o.fi);
        System.out.println(o.fl *= 2);
        System.out.println(-o.fl);
        o.fi <<= 4;
        o.fi |= 3;
        o.fi &= ~1;
        o.fi ^= 255;
        o.fi %= 100;
        o.fi >>= 1;
        o.fi >>>= 1;
        o.fi /= 3;
        System.out.println(o.fi);
        long[] ls = {5, 6};
        ls[0]--;
        ls[1] += ls[0]++ << 3;
        System.out.println(ls[0] + " " + ls[1]);
        char[] cs = {'x'};
        cs[0] += 2;
        System.out.println(cs[0]--);
        System.out.println(cs[0]);
        byte[] bs = {-128};
        System.out.println(--bs[0]);
        System.out.println(-(-2147483648) + " " + ~0 + " " + - -5 + " " + +7 + " " + ~~9L);
        int local = 1000;
        local += 1000;
        local += -32768;
        local += 32767;
        local -= 128;
        local++;
        System.out.println(local);
        int i = 65;
        i += 'a';
        char c = (char) i;
        System.out.println(c);
        short s = 10;
        s = (short) -s;
        s /= 3;
        System.out.println(s);
    }
}
