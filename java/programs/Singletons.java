// Objects that are made when first asked for, constants of a class's own kind, and counters of all.
class Singletons {
    static int made;
    final int id;

    Singletons() {
        id = ++made;
    }

    static class Holder {
        static final Singletons ONLY = new Singletons();
    }

    static final class Suit {
        static final Suit[] ALL = new Suit[4];
        static final Suit CLUBS = new Suit("clubs", false);
        static final Suit DIAMONDS = new Suit("diamonds", true);
        static final Suit HEARTS = new Suit("hearts", true);
        static final Suit SPADES = new Suit("spades", false);
        private static int count;
        final String name;
        final boolean red;
        final int number;

        Suit(String name, boolean red) {
            this.name = name;
            this.red = red;
            number = count;
            ALL[count++] = this;
        }

        Suit next() {
            return ALL[(number + 1) % ALL.length];
        }

        public String toString() {
            return (red ? "red " : "black ") + name;
        }
    }

    private static Singletons lazy;

    static synchronized Singletons lazy() {
        if (lazy == null) {
            lazy = new Singletons();
        }
        return lazy;
    }

    public static void main(String[] args) {
        System.out.println(made);
        System.out.println(lazy().id + " " + (lazy() == lazy()));
        System.out.println(Holder.ONLY.id + " " + made);
        System.out.println(new Singletons().id + " " + Holder.ONLY.id + " " + lazy().id);
        Suit suit = Suit.DIAMONDS;
        for (int i = 0; i < 5; i++) {
            System.out.println(suit.number + " " + suit);
            suit = suit.next();
        }
        System.out.println((suit == Suit.SPADES) + " " + (Suit.HEARTS.next() == Suit.SPADES) + " " + Suit.ALL.length);
    }
}
