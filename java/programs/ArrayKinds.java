// Arrays of every kind: what they begin with, what they keep, and their lengths.
class ArrayKinds {
    public static void main(String[] args) {
        boolean[] zs = new boolean[3];
        byte[] bs = new byte[3];
        char[] cs = new char[3];
        short[] ss = new short[3];
        int[] is = new int[3];
        long[] ls = new long[3];
        String[] texts = new String[3];
        Object[] none = new Object[0];
        System.out.println(zs[0] + " " + bs[0] + " " + (int) cs[0] + " " + ss[0] + " " + is[0] + " " + ls[0] + " " + texts[0]);
        for (int i = 0; i < 3; i++) {
            zs[i] = i != 1;
            bs[i] = (byte) (i * 100);
            cs[i] = (char) ('x' + i);
            ss[i] = (short) (i * 20000);
            is[i] = i * 2000000000;
            ls[i] = i * 9000000000000000000L;
            texts[i] = "t" + i;
        }
        for (int i = 0; i < 3; i++) {
            System.out.println(zs[i] + " " + bs[i] + " " + cs[i] + " " + ss[i] + " " + is[i] + " " + ls[i] + " " + texts[i]);
        }
        System.out.println(none.length + " " + zs.length + " " + args.length);
        bs[0] += 300;
        cs[0]++;
        ss[1] <<= 3;
        is[2] = ~is[2];
        ls[1]--;
        zs[0] ^= true;
        texts[0] += "+";
        System.out.println(bs[0] + " " + cs[0] + " " + ss[1] + " " + is[2] + " " + ls[1] + " " + zs[0] + " " + texts[0]);
        int[] table = {1, 2, 4, 8, 16, -32768, 65536, 2147483647};
        byte[] small = {-128, 127, 0};
        long[] wide = {1L << 62, -1};
        char[] letters = {'a', '\u20ac'};
        boolean[] flags = {true, false, true};
        long sum = 0;
        for (int n : table) sum += n;
        for (byte n : small) sum += n;
        for (long n : wide) sum += n;
        for (char n : letters) sum += n;
        for (boolean flag : flags) sum += flag ? 1 : 0;
        System.out.println(sum);
        int[] same = table;
        same[0] = 99;
        System.out.println(table[0] + " " + (same == table));
    }
}
