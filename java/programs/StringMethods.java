// length, charAt and equals; equal literals are one object, what is put together is another.
class StringMethods {
    static boolean isPalindrome(String s) {
        for (int i = 0, j = s.length() - 1; i < j; i++, j--) {
            if (s.charAt(i) != s.charAt(j)) {
                return false;
            }
        }
        return true;
    }

    static int indexOf(String text, String part) {
        for (int i = 0; i + part.length() <= text.length(); i++) {
            int j = 0;
            while (j < part.length() && text.charAt(i + j) == part.charAt(j)) {
                j++;
            }
            if (j == part.length()) {
                return i;
            }
        }
        return -1;
    }

    static int compare(String a, String b) {
        for (int i = 0; i < a.length() && i < b.length(); i++) {
            if (a.charAt(i) != b.charAt(i)) {
                return a.charAt(i) - b.charAt(i);
            }
        }
        return a.length() - b.length();
    }

    public static void main(String[] args) {
        String ab = "ab";
        String built = new StringBuilder("a").append('b').toString();
        System.out.println(ab == "ab");
        System.out.println(ab == "a" + "b");
        System.out.println(ab == built);
        System.out.println(ab.equals(built) + " " + built.equals(ab) + " " + ab.equals(ab));
        System.out.println(ab.equals(null) + " " + ab.equals("abc") + " " + ab.equals("ac") + " " + ab.equals(new Object()));
        System.out.println("".length() + " " + "\u00e9\u20ac\ud83d\ude00".length() + " " + "".equals(""));
        System.out.println(isPalindrome("racecar") + " " + isPalindrome("racecars") + " " + isPalindrome(""));
        System.out.println(indexOf("abracadabra", "cad") + " " + indexOf("abracadabra", "cab") + " " + indexOf("abc", ""));
        System.out.println(compare("abc", "abd") + " " + compare("abc", "ab") + " " + compare("", ""));
        int[] bad = {-1, 2, 2147483647};
        for (int i : bad) {
            try {
                System.out.println(ab.charAt(i));
            } catch (StringIndexOutOfBoundsException e) {
                System.out.println("no char " + i);
            }
        }
        try {
            ab.charAt(9);
        } catch (IndexOutOfBoundsException e) {
            System.out.println("also an IndexOutOfBoundsException");
        }
    }
}
