// The + of texts with every kind, and +=.
class Concatenation {
    static String field = "f";
    String own = "o";

    public String toString() {
        return "<" + own + ">";
    }

    public static void main(String[] args) {
        int i = -3;
        long l = 1L << 33;
        char c = 'c';
        boolean z = i < 0;
        byte b = (byte) 200;
        short s = (short) 40000;
        String none = null;
        Object object = new Concatenation();
        System.out.println("i=" + i + " l=" + l + " c=" + c + " z=" + z + " b=" + b + " s=" + s + " " + none + " " + object);
        System.out.println(1 + 2 + "three" + 4 + 5);
        System.out.println(c + 1 + "x" + c + 1);
        String text = "";
        for (int n = 0; n < 12; n++) {
            text += n;
            text += n % 2 == 0 ? ',' : ';';
        }
        System.out.println(text);
        field += "g";
        field += field;
        System.out.println(field);
        Concatenation o = new Concatenation();
        o.own += "p" + o;
        System.out.println(o);
        String[] words = {"a", "b"};
        words[1] += words[0] + null;
        System.out.println(words[1]);
        final String folded = "con" + "stant" + 1 + 'x' + true + 2L;
        System.out.println(folded + (folded == "constant1xtrue2"));
    }
}
