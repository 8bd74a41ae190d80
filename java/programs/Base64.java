// Bytes as texts of 64 letters, there and back.
class Base64 {
    static final String LETTERS = "ABCDEFGHIJKLMNOPQRSTUVWXYZabcdefghijklmnopqrstuvwxyz0123456789+/";

    static String encode(byte[] bytes) {
        StringBuilder out = new StringBuilder();
        for (int i = 0; i < bytes.length; i += 3) {
            int left = bytes.length - i;
            int three = (bytes[i] & 255) << 16 | (left > 1 ? (bytes[i + 1] & 255) << 8 : 0) | (left > 2 ? bytes[i + 2] & 255 : 0);
            out.append(LETTERS.charAt(three >> 18)).append(LETTERS.charAt(three >> 12 & 63));
            out.append(left > 1 ? LETTERS.charAt(three >> 6 & 63) : '=');
            out.append(left > 2 ? LETTERS.charAt(three & 63) : '=');
        }
        return out.toString();
    }

    static int number(char c) {
        for (int i = 0; i < 64; i++) {
            if (LETTERS.charAt(i) == c) {
                return i;
            }
        }
        return 0;
    }

    static byte[] decode(String text) {
        int padding = 0;
        while (padding < text.length() && text.charAt(text.length() - 1 - padding) == '=') {
            padding++;
        }
        byte[] bytes = new byte[text.length() / 4 * 3 - padding];
        for (int i = 0, at = 0; i < text.length(); i += 4) {
            int three = 0;
            for (int j = 0; j < 4; j++) {
                three = three << 6 | number(text.charAt(i + j));
            }
            for (int shift = 16; shift >= 0 && at < bytes.length; shift -= 8) {
                bytes[at++] = (byte) (three >> shift);
            }
        }
        return bytes;
    }

    public static void main(String[] args) {
        for (int length = 0; length < 12; length++) {
            byte[] bytes = new byte[length];
            for (int i = 0; i < length; i++) {
                bytes[i] = (byte) (i * 67 + length * 31);
            }
            String text = encode(bytes);
            byte[] again = decode(text);
            boolean same = again.length == length;
            for (int i = 0; same && i < length; i++) {
                same = again[i] == bytes[i];
            }
            System.out.println(text + " " + same);
        }
        String plain = "";
        for (byte b : decode("QW55IGNhcm5hbCBwbGVhc3VyZS4=")) {
            plain += (char) b;
        }
        System.out.println(plain);
    }
}
