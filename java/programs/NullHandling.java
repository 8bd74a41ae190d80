// null: printed, put together, cast, tested, kept in fields and arrays, and thrown.
class NullHandling {
    static String text;
    static int[] numbers;
    NullHandling next;
    Object thing;

    static String describe(Object o) {
        return o == null ? "null" : o instanceof String ? "text" : "thing";
    }

    static NullHandling find(NullHandling from, int steps) {
        return steps == 0 || from == null ? from : find(from.next, steps - 1);
    }

    public static void main(String[] args) {
        System.out.println(text);
        System.out.println(text + null + text);
        System.out.println((Object) numbers);
        System.out.println(describe(text) + describe("") + describe(numbers) + describe(new Object()));
        String cast = (String) (Object) null;
        int[] array = (int[]) (Object) null;
        Runnable face = (Runnable) (Object) null;
        System.out.println((cast == null) + " " + (array == null) + " " + (face == null));
        System.out.println((null instanceof Object) + " " + (text instanceof String) + " " + (numbers instanceof int[]));
        NullHandling a = new NullHandling();
        a.next = new NullHandling();
        System.out.println((find(a, 1) == a.next) + " " + (find(a, 2) == null) + " " + (find(a, 9) == null));
        System.out.println(a.thing == a.next.next);
        try {
            a.next.next.thing = a;
        } catch (NullPointerException e) {
            System.out.println("caught " + (a.next.next == null));
        }
        text = "now set";
        numbers = new int[3];
        System.out.println(text + " " + numbers.length);
        text = null;
        try {
            text += text.length();
        } catch (NullPointerException e) {
            System.out.println(text == null);
        }
        try {
            throw null;
        } catch (NullPointerException e) {
            System.out.println("thrown null");
        }
        String[] words = new String[3];
        words[1] = "middle";
        StringBuilder line = new StringBuilder();
        for (String word : words) {
            line.append(word).append(' ');
        }
        System.out.println(line.toString());
        System.out.println("x".equals(words[0]));
    }
}
