// Equal literals are one object, in whatever class they stand; texts that are put together are others.
class Literals {
    static final String SHARED = "shared";
    static String stored = "shared";

    static class Other {
        static final String CONSTANT = "sha" + "red";
        String own = "shared";

        static String give() {
            return "shared";
        }
    }

    interface Third {
        String TEXT = "shared";
        String BUILT = new StringBuilder("shared").toString();
    }

    static String end(String text) {
        return text + "red";
    }

    public static void main(String[] args) {
        String here = "shared";
        System.out.println((here == SHARED) + " " + (here == stored) + " " + (here == Other.CONSTANT) + " " + (here == Other.give()));
        System.out.println((here == new Other().own) + " " + (here == Third.TEXT) + " " + (here == Third.BUILT));
        System.out.println((here == end("sha")) + " " + here.equals(end("sha")) + " " + (end("sha") == end("sha")));
        String[] texts = {"", "a", "\u00e9", "\u20ac", "\ud83d\ude00", "\0", "a\nb", "shared"};
        int chars = 0;
        for (String text : texts) {
            chars += text.length();
            for (int i = 0; i < text.length(); i++) {
                chars = chars * 7 + text.charAt(i);
            }
        }
        System.out.println(chars);
        System.out.println(("" == texts[0]) + " " + ("\u0061" == texts[1]) + " " + ("\ud83d\ude00" == texts[4]) + " " + (texts[5] == "\u0000"));
        Object o = "shared";
        System.out.println((o == here) + " " + o.equals(Third.BUILT) + " " + Third.BUILT.equals(o));
        final String local = "sha";
        System.out.println((local + "red" == here) + " " + (local + texts[0] == "sha"));
    }
}
