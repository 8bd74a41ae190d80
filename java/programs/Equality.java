// equals: that of Object, overridden ones, one that asks the superclass, and ==.
class Equality {
    static class Point {
        final int x;
        final int y;

        Point(int x, int y) {
            this.x = x;
            this.y = y;
        }

        public boolean equals(Object other) {
            if (!(other instanceof Point)) {
                return false;
            }
            Point p = (Point) other;
            return x == p.x && y == p.y;
        }
    }

    static class Coloured extends Point {
        final String colour;

        Coloured(int x, int y, String colour) {
            super(x, y);
            this.colour = colour;
        }

        public boolean equals(Object other) {
            return super.equals(other) && other instanceof Coloured && colour.equals(((Coloured) other).colour);
        }
    }

    static class Only {
        int asked;

        public boolean equals(Object other) {
            asked++;
            return super.equals(other);
        }
    }

    static int find(Object[] all, Object what) {
        for (int i = 0; i < all.length; i++) {
            if (all[i].equals(what)) {
                return i;
            }
        }
        return -1;
    }

    public static void main(String[] args) {
        Point p = new Point(1, 2);
        Point same = new Point(1, 2);
        Coloured red = new Coloured(1, 2, "red");
        Coloured also = new Coloured(1, 2, "r" + (args.length == 0 ? "ed" : ""));
        System.out.println((p == same) + " " + p.equals(same) + " " + p.equals(null) + " " + p.equals("text"));
        System.out.println(p.equals(red) + " " + red.equals(p) + " " + red.equals(also) + " " + (red.colour == also.colour));
        Only only = new Only();
        System.out.println(only.equals(only) + " " + only.equals(p) + " " + only.asked);
        Object[] all = {"text", new int[1], p, red, only, new Object()};
        System.out.println(find(all, "text") + " " + find(all, same) + " " + find(all, also) + " " + find(all, all[1]));
        System.out.println(find(all, only) + " " + find(all, all[5]) + " " + find(all, new int[1]) + " " + find(all, null));
        Object o = p;
        System.out.println(o.equals(same) + " " + (o != same) + " " + (all[2] == o));
    }
}
