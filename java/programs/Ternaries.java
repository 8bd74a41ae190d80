// Conditional expressions of every kind, in one another, in arguments and with effects.
class Ternaries {
    static int count;

    static int tick() {
        return ++count;
    }

    static String size(int n) {
        return n < 0 ? "negative" : n == 0 ? "zero" : n < 10 ? "small" : n < 1000 ? "middling" : "large";
    }

    static long pick(boolean b, long l, int i) {
        return b ? l : i;
    }

    static int most(int a, int b, int c) {
        return a > b ? a > c ? a : c : b > c ? b : c;
    }

    static Object either(int n) {
        return n % 2 == 0 ? "even" : (Object) new int[n];
    }

    public static void main(String[] args) {
        int[] sizes = {-5, 0, 9, 10, 999, 1000};
        for (int n : sizes) {
            System.out.println(size(n));
        }
        System.out.println(pick(true, 1L << 40, 3) + " " + pick(false, 1L << 40, 3));
        System.out.println(most(1, 2, 3) + " " + most(3, 1, 2) + " " + most(2, 3, 1));
        int first = count > 0 ? tick() : tick() + tick();
        System.out.println(first + " " + count);
        char c = count == 2 ? 'y' : 'n';
        byte b = (byte) (c == 'y' ? 300 : 1);
        System.out.println(c + " " + b);
        System.out.println(either(2) instanceof String ? "a text" : "an array");
        System.out.println(either(3) instanceof int[] ? ((int[]) either(3)).length : -1);
        boolean z = args.length == 0 ? count < 3 ? true : false : args[0] == null;
        System.out.println(z ? 1 : 0);
        int[] array = z ? sizes : null;
        (z ? array : sizes)[z ? 0 : 1] = 77;
        System.out.println(sizes[0]);
        String s = null;
        System.out.println((s == null ? "none" : s) + (s != null ? s : "!"));
        System.out.println(true ? 'a' : 0);
        System.out.println(count > 0 ? 1 : 'b');
        System.out.println(z ? count : 'b');
    }
}
