// Things that meet: which method runs depends on both.
class DoubleDispatch {
    interface Visitor {
        long number(long n);

        long sum(Node left, Node right);

        long negated(Node of);
    }

    abstract static class Node {
        abstract long accept(Visitor v);
    }

    static class Number extends Node {
        final long n;

        Number(long n) {
            this.n = n;
        }

        long accept(Visitor v) {
            return v.number(n);
        }
    }

    static class Sum extends Node {
        final Node left;
        final Node right;

        Sum(Node left, Node right) {
            this.left = left;
            this.right = right;
        }

        long accept(Visitor v) {
            return v.sum(left, right);
        }
    }

    static class Negated extends Node {
        final Node of;

        Negated(Node of) {
            this.of = of;
        }

        long accept(Visitor v) {
            return v.negated(of);
        }
    }

    static class Value implements Visitor {
        public long number(long n) {
            return n;
        }

        public long sum(Node left, Node right) {
            return left.accept(this) + right.accept(this);
        }

        public long negated(Node of) {
            return -of.accept(this);
        }
    }

    static class Printer extends Value {
        final StringBuilder text = new StringBuilder();

        public long number(long n) {
            text.append(n);
            return 1;
        }

        public long sum(Node left, Node right) {
            text.append('(');
            long count = left.accept(this);
            text.append(" + ");
            count += right.accept(this);
            text.append(')');
            return count;
        }

        public long negated(Node of) {
            text.append('-');
            return -super.negated(of) + 1;
        }
    }

    public static void main(String[] args) {
        Node tree = new Number(1);
        for (int i = 2; i < 7; i++) {
            tree = new Sum(i % 2 == 0 ? new Negated(tree) : tree, new Number(i * 1000000007L));
        }
        Printer printer = new Printer();
        long nodes = tree.accept(printer);
        System.out.println(printer.text.toString() + " = " + tree.accept(new Value()) + ", " + nodes);
    }
}
