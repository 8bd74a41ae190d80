// Checksums and hashes of texts, in ints and longs.
class Checksums {
    static final int[] TABLE = new int[256];

    static {
        for (int i = 0; i < 256; i++) {
            int c = i;
            for (int bit = 0; bit < 8; bit++) {
                c = (c & 1) != 0 ? 0xedb88320 ^ c >>> 1 : c >>> 1;
            }
            TABLE[i] = c;
        }
    }

    static int crc32(String text) {
        int crc = -1;
        for (int i = 0; i < text.length(); i++) {
            crc = TABLE[(crc ^ text.charAt(i)) & 255] ^ crc >>> 8;
        }
        return ~crc;
    }

    static long adler32(String text) {
        int a = 1;
        int b = 0;
        for (int i = 0; i < text.length(); i++) {
            a = (a + text.charAt(i)) % 65521;
            b = (b + a) % 65521;
        }
        return ((long) b << 16 | a) & 0xffffffffL;
    }

    static long fnv(String text) {
        long hash = 0xcbf29ce484222325L;
        for (int i = 0; i < text.length(); i++) {
            hash ^= text.charAt(i);
            hash *= 0x100000001b3L;
        }
        return hash;
    }

    static long xorshift(long x) {
        x ^= x << 13;
        x ^= x >>> 7;
        x ^= x << 17;
        return x;
    }

    static String hex(long n, int digits) {
        String text = "";
        for (int i = (digits - 1) * 4; i >= 0; i -= 4) {
            text += "0123456789abcdef".charAt((int) (n >>> i) & 15);
        }
        return text;
    }

    public static void main(String[] args) {
        String[] texts = {"", "a", "123456789", "Wikipedia", "The quick brown fox jumps over the lazy dog"};
        for (String text : texts) {
            System.out.println(hex(crc32(text), 8) + " " + hex(adler32(text), 8) + " " + hex(fnv(text), 16));
        }
        long x = 88172645463325252L;
        for (int i = 0; i < 5; i++) {
            x = xorshift(x);
            System.out.println(x);
        }
    }
}
