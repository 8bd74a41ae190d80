// Sums written with the operator behind its operands, and what is wrong with some.
class ReversePolish {
    static class Bad extends Exception {
        Bad(String message) {
            super(message);
        }
    }

    private final long[] stack = new long[16];
    private int depth;

    private long pop() throws Bad {
        if (depth == 0) {
            throw new Bad("nothing left");
        }
        return stack[--depth];
    }

    private void push(long n) throws Bad {
        try {
            stack[depth++] = n;
        } catch (ArrayIndexOutOfBoundsException e) {
            throw new Bad("too deep");
        }
    }

    private void operate(char sign) throws Bad {
        long right = pop();
        long left = pop();
        switch (sign) {
            case '+': push(left + right); break;
            case '-': push(left - right); break;
            case '*': push(left * right); break;
            case '/': push(left / right); break;
            case '%': push(left % right); break;
            default: throw new Bad("what is " + sign + "?");
        }
    }

    long value(String text) throws Bad {
        for (int i = 0; i < text.length(); i++) {
            char c = text.charAt(i);
            if (c == ' ') {
                continue;
            }
            if (c >= '0' && c <= '9') {
                long n = 0;
                while (i < text.length() && text.charAt(i) >= '0' && text.charAt(i) <= '9') {
                    n = n * 10 + text.charAt(i++) - '0';
                }
                i--;
                push(n);
            } else {
                operate(c);
            }
        }
        long result = pop();
        if (depth > 0) {
            throw new Bad(depth + " left over");
        }
        return result;
    }

    public static void main(String[] args) {
        String[] sums = {
            "1 2 +", "3 4 5 * -", "1000000007 1000000007 * 10 %", "7 0 /", "1 +", "1 2", "9 9 ^", "", "0 1 - 1 /",
            "1 1 1 1 1 1 1 1 1 1 1 1 1 1 1 1 1", "2 2 * 2 * 2 * 2 * 2 * 2 *"
        };
        for (String sum : sums) {
            try {
                System.out.println(sum + " = " + new ReversePolish().value(sum));
            } catch (Bad e) {
                System.out.println(sum + ": " + e.getMessage());
            } catch (ArithmeticException e) {
                System.out.println(sum + ": no such quotient");
            }
        }
    }
}
