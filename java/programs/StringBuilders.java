// A StringBuilder takes every kind, grows, and gives the text at any time.
class StringBuilders {
    static final class Point {
        final int x;
        final int y;

        Point(int x, int y) {
            this.x = x;
            this.y = y;
        }

        public String toString() {
            return "(" + x + ", " + y + ")";
        }
    }

    public static void main(String[] args) {
        StringBuilder b = new StringBuilder();
        System.out.println("[" + b.toString() + "]");
        b.append(-5).append(' ').append(1L << 40).append(' ').append('x').append(true).append(false);
        System.out.println(b.toString());
        b.append("text").append((String) null).append((Object) null).append(new Point(3, -4));
        Object o = "a String";
        b.append(o);
        System.out.println(b.toString());
        StringBuilder from = new StringBuilder("given");
        from.append("");
        for (int i = 0; i < 40; i++) {
            from.append(i).append(i % 10 == 9 ? '\n' : ',');
        }
        String first = from.toString();
        from.append("more");
        System.out.print(first);
        System.out.println(first.length());
        System.out.println(from.toString().length());
        StringBuilder exact = new StringBuilder();
        for (int i = 0; i < 16; i++) {
            exact.append((char) ('a' + i));
        }
        System.out.println(exact.toString());
        exact.append('q');
        System.out.println(exact.toString());
        StringBuilder jump = new StringBuilder("0123456789012345678901234567890123456789012345678901234567890123456789");
        System.out.println(jump.append(-2147483648).append(-9223372036854775808L).toString());
        StringBuilder same = jump.append("!");
        System.out.println(same == jump);
    }
}
