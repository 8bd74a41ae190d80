// Natural numbers of many digits, nine in an int: factorials, powers and a sum.
class BigNumbers {
    static final int BASE = 1000000000;
    private int[] digits = new int[2];
    private int length = 1;

    BigNumbers(int n) {
        digits[0] = n;
    }

    private void push(int digit) {
        if (length == digits.length) {
            int[] more = new int[length * 2];
            for (int i = 0; i < length; i++) {
                more[i] = digits[i];
            }
            digits = more;
        }
        digits[length++] = digit;
    }

    void times(int n) {
        long carry = 0;
        for (int i = 0; i < length; i++) {
            carry += (long) digits[i] * n;
            digits[i] = (int) (carry % BASE);
            carry /= BASE;
        }
        if (carry > 0) {
            push((int) carry);
        }
    }

    void plus(BigNumbers other) {
        int carry = 0;
        for (int i = 0; i < other.length || carry > 0; i++) {
            if (i == length) {
                push(0);
            }
            int sum = digits[i] + carry + (i < other.length ? other.digits[i] : 0);
            digits[i] = sum % BASE;
            carry = sum / BASE;
        }
    }

    public String toString() {
        StringBuilder text = new StringBuilder();
        text.append(digits[length - 1]);
        for (int i = length - 2; i >= 0; i--) {
            for (int least = BASE / 10; digits[i] < least; least /= 10) {
                text.append(0);
                if (least == 1) {
                    break;
                }
            }
            if (digits[i] > 0) {
                text.append(digits[i]);
            }
        }
        return text.toString();
    }

    public static void main(String[] args) {
        BigNumbers factorial = new BigNumbers(1);
        for (int n = 1; n <= 40; n++) {
            factorial.times(n);
            if (n % 10 == 0) {
                System.out.println(factorial);
            }
        }
        BigNumbers power = new BigNumbers(1);
        for (int i = 0; i < 128; i++) {
            power.times(2);
        }
        System.out.println(power);
        BigNumbers a = new BigNumbers(0);
        BigNumbers b = new BigNumbers(1);
        for (int i = 0; i < 200; i++) {
            BigNumbers c = a;
            a = b;
            c.plus(b);
            b = c;
        }
        System.out.println(a);
    }
}
