// Chars are numbers: alphabets, digits, a shift cipher and hexadecimal.
class CharArithmetic {
    static char shifted(char c, int by) {
        if (c >= 'a' && c <= 'z') {
            return (char) ('a' + (c - 'a' + by + 26) % 26);
        }
        if (c >= 'A' && c <= 'Z') {
            return (char) ('A' + (c - 'A' + by + 26) % 26);
        }
        return c;
    }

    static String cipher(String text, int by) {
        StringBuilder out = new StringBuilder();
        for (int i = 0; i < text.length(); i++) {
            out.append(shifted(text.charAt(i), by));
        }
        return out.toString();
    }

    static String hex(int n) {
        char[] digits = new char[8];
        for (int i = 7; i >= 0; i--) {
            int d = n & 15;
            digits[i] = (char) (d < 10 ? '0' + d : 'a' + d - 10);
            n >>>= 4;
        }
        StringBuilder out = new StringBuilder();
        for (char digit : digits) {
            out.append(digit);
        }
        return out.toString();
    }

    public static void main(String[] args) {
        for (char c = 'a'; c <= 'z'; c++) {
            System.out.print(c);
        }
        System.out.println();
        String secret = cipher("The quick brown fox, it jumped!", 13);
        System.out.println(secret);
        System.out.println(cipher(secret, -13));
        System.out.println(hex(0) + hex(-1) + hex(0xcafebabe) + hex(123456789));
        char c = 'x';
        c += 1;
        System.out.println(c);
        System.out.println(c + 1);
        System.out.println((char) (c + 1));
        System.out.println(c++ + c++);
        System.out.println('a' + 'b');
        System.out.println("" + 'a' + 'b');
        c = '\uffff';
        c++;
        System.out.println((int) c);
    }
}
