/** Formulas with variables: read from text into objects, worked out, simplified and differentiated. */
class Calculator {
    interface Variables {
        long value(char name);
    }

    interface Formula {
        long value(Variables variables);

        Formula derivative(char name);

        Formula simplified();
    }

    static class Syntax extends Exception {
        Syntax(String message, int at) {
            super(message + " at " + at);
        }
    }

    static final class Constant implements Formula {
        final long n;

        Constant(long n) {
            this.n = n;
        }

        public long value(Variables variables) {
            return n;
        }

        public Formula derivative(char name) {
            return new Constant(0);
        }

        public Formula simplified() {
            return this;
        }

        public String toString() {
            return n < 0 ? "(" + n + ")" : "" + n;
        }
    }

    static final class Variable implements Formula {
        final char name;

        Variable(char name) {
            this.name = name;
        }

        public long value(Variables variables) {
            return variables.value(name);
        }

        public Formula derivative(char other) {
            return new Constant(name == other ? 1 : 0);
        }

        public Formula simplified() {
            return this;
        }

        public String toString() {
            return "" + name;
        }
    }

    abstract static class Operation implements Formula {
        final Formula left;
        final Formula right;

        Operation(Formula left, Formula right) {
            this.left = left;
            this.right = right;
        }

        abstract char sign();

        abstract Formula of(Formula left, Formula right);

        abstract long apply(long left, long right);

        /** What it is by a rule, where one fits; else null. */
        abstract Formula byRule(Formula left, Formula right);

        public final long value(Variables variables) {
            return apply(left.value(variables), right.value(variables));
        }

        public final Formula simplified() {
            Formula l = left.simplified();
            Formula r = right.simplified();
            if (l instanceof Constant && r instanceof Constant) {
                return new Constant(apply(((Constant) l).n, ((Constant) r).n));
            }
            Formula rule = byRule(l, r);
            return rule == null ? of(l, r) : rule;
        }

        public String toString() {
            return "(" + left + " " + sign() + " " + right + ")";
        }
    }

    static boolean is(Formula f, long n) {
        return f instanceof Constant && ((Constant) f).n == n;
    }

    static final class Sum extends Operation {
        Sum(Formula left, Formula right) {
            super(left, right);
        }

        char sign() {
            return '+';
        }

        Formula of(Formula l, Formula r) {
            return new Sum(l, r);
        }

        long apply(long l, long r) {
            return l + r;
        }

        Formula byRule(Formula l, Formula r) {
            return is(l, 0) ? r : is(r, 0) ? l : null;
        }

        public Formula derivative(char name) {
            return new Sum(left.derivative(name), right.derivative(name));
        }
    }

    static final class Product extends Operation {
        Product(Formula left, Formula right) {
            super(left, right);
        }

        char sign() {
            return '*';
        }

        Formula of(Formula l, Formula r) {
            return new Product(l, r);
        }

        long apply(long l, long r) {
            return l * r;
        }

        Formula byRule(Formula l, Formula r) {
            return is(l, 0) || is(r, 0) ? new Constant(0) : is(l, 1) ? r : is(r, 1) ? l : null;
        }

        public Formula derivative(char name) {
            return new Sum(new Product(left.derivative(name), right), new Product(left, right.derivative(name)));
        }
    }

    /** Reads a formula: sums of products of numbers, names and formulas in brackets. */
    static final class Reader {
        private final String text;
        private int at;

        Reader(String text) {
            this.text = text;
        }

        private char peek() {
            while (at < text.length() && text.charAt(at) == ' ') {
                at++;
            }
            return at < text.length() ? text.charAt(at) : '\n';
        }

        private Formula sum() throws Syntax {
            Formula f = product();
            while (peek() == '+' || peek() == '-') {
                boolean minus = text.charAt(at++) == '-';
                Formula g = product();
                f = new Sum(f, minus ? new Product(new Constant(-1), g) : g);
            }
            return f;
        }

        private Formula product() throws Syntax {
            Formula f = factor();
            while (peek() == '*') {
                at++;
                f = new Product(f, factor());
            }
            return f;
        }

        private Formula factor() throws Syntax {
            char c = peek();
            if (c >= 'a' && c <= 'z') {
                at++;
                return new Variable(c);
            }
            if (c == '(') {
                at++;
                Formula f = sum();
                if (peek() != ')') {
                    throw new Syntax("no closing bracket", at);
                }
                at++;
                return f;
            }
            if (c < '0' || c > '9') {
                throw new Syntax(c == '\n' ? "the end" : "the sign " + c, at);
            }
            long n = 0;
            while (at < text.length() && text.charAt(at) >= '0' && text.charAt(at) <= '9') {
                n = 10 * n + text.charAt(at++) - '0';
            }
            return new Constant(n);
        }

        Formula all() throws Syntax {
            Formula f = sum();
            if (peek() != '\n') {
                throw new Syntax("something more", at);
            }
            return f;
        }
    }

    static final class Letters implements Variables {
        public long value(char name) {
            if (name < 'x') {
                throw new IllegalArgumentException("no value for " + name);
            }
            return name - 'x' + 2;
        }
    }

    public static void main(String[] args) {
        String[] texts = {
            "1 + 2 * 3", "x * x + 3 * x - 4", "(x + y) * (x - y)", "2 * (x * 0 + 1) * y + 0", "z * z * z", "a + 1", "(1 + 2", "4 * * x",
            "100000 * 100000 * 100000 - x", "", "1 1"
        };
        for (String text : texts) {
            try {
                Formula f = new Reader(text).all();
                System.out.println(text + "  is  " + f);
                System.out.println("    simplified  " + f.simplified());
                System.out.println("    d/dx        " + f.derivative('x').simplified());
                System.out.println("    value       " + f.value(new Letters()));
            } catch (Syntax e) {
                System.out.println(text + "  can't be read: " + e.getMessage());
            } catch (IllegalArgumentException e) {
                System.out.println("    " + e.getMessage());
            }
        }
    }
}
