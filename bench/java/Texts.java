// Texts put together, looked through, compared and printed.
class Texts {
    static String reversed(String text) {
        StringBuilder out = new StringBuilder();
        for (int i = text.length() - 1; i >= 0; i--) {
            out.append(text.charAt(i));
        }
        return out.toString();
    }

    static int count(String text, char what) {
        int count = 0;
        for (int i = 0; i < text.length(); i++) {
            if (text.charAt(i) == what) {
                count++;
            }
        }
        return count;
    }

    public static void main(String[] args) {
        int sevens = 0;
        int same = 0;
        for (int i = 0; i < 1100; i++) {
            String line = "line " + i + " of " + 1100 + ": " + i * 37 % 1000;
            String back = reversed(line);
            sevens += count(back, '7');
            if (reversed(back).equals(line)) {
                same++;
            }
            if (i % 100 == 0) {
                System.out.println(line + " | " + back);
            }
        }
        System.out.println(sevens + " " + same);
    }
}
