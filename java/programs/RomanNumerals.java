// Roman numerals, there and back.
class RomanNumerals {
    static final int[] VALUES = {1000, 900, 500, 400, 100, 90, 50, 40, 10, 9, 5, 4, 1};
    static final String[] SIGNS = {"M", "CM", "D", "CD", "C", "XC", "L", "XL", "X", "IX", "V", "IV", "I"};

    static String roman(int n) {
        if (n < 1 || n > 3999) {
            throw new IllegalArgumentException("no numeral for " + n);
        }
        String text = "";
        for (int i = 0; i < VALUES.length; i++) {
            while (n >= VALUES[i]) {
                text += SIGNS[i];
                n -= VALUES[i];
            }
        }
        return text;
    }

    static int value(char sign) {
        for (int i = 0; i < SIGNS.length; i += 2) {
            if (SIGNS[i].charAt(0) == sign) {
                return VALUES[i];
            }
        }
        throw new IllegalArgumentException("no sign " + sign);
    }

    static int number(String text) {
        int sum = 0;
        for (int i = 0; i < text.length(); i++) {
            int n = value(text.charAt(i));
            if (i + 1 < text.length() && value(text.charAt(i + 1)) > n) {
                sum -= n;
            } else {
                sum += n;
            }
        }
        return sum;
    }

    public static void main(String[] args) {
        int[] numbers = {1, 4, 9, 14, 40, 90, 99, 400, 1987, 2019, 3888, 3999};
        for (int n : numbers) {
            System.out.println(n + " " + roman(n) + " " + number(roman(n)));
        }
        int wrong = 0;
        for (int n = 1; n < 200; n++) {
            if (number(roman(n)) != n) {
                wrong++;
            }
        }
        System.out.println(wrong);
        try {
            roman(4000);
        } catch (IllegalArgumentException e) {
            System.out.println(e.getMessage());
        }
        try {
            number("MAX");
        } catch (IllegalArgumentException e) {
            System.out.println(e.getMessage());
        }
    }
}
