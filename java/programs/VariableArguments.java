// Calls with a variable number of arguments, which are arrays, and overloading among them.
class VariableArguments {
    static int sum(int... numbers) {
        int sum = 0;
        for (int n : numbers) {
            sum += n;
        }
        return sum;
    }

    static String join(String separator, Object... parts) {
        StringBuilder text = new StringBuilder();
        for (int i = 0; i < parts.length; i++) {
            if (i > 0) {
                text.append(separator);
            }
            text.append(parts[i]);
        }
        return text.toString();
    }

    static String which(int n) {
        return "one";
    }

    static String which(long n) {
        return "long";
    }

    static String which(int... n) {
        return "many " + n.length;
    }

    static long product(long first, long... rest) {
        return rest.length == 0 ? first : first * rest[0] * rest[rest.length - 1];
    }

    static void change(int... numbers) {
        if (numbers.length > 0) {
            numbers[0] = -1;
        }
    }

    public static void main(String... args) {
        System.out.println(sum() + " " + sum(1) + " " + sum(1, 2, 3) + " " + sum(new int[] {4, 5}));
        System.out.println(join("-") + join("-", "a") + join("+", "b", null, "c") + join("*", new Object[] {"d", "e"}));
        System.out.println(which(1) + " " + which('c') + " " + which(1L) + " " + which() + " " + which(1, 2));
        System.out.println(product(3) + " " + product(3, 1L << 40) + " " + product(2, 3, 5, 7));
        int[] kept = {1, 2};
        change(kept);
        change(kept[1]);
        System.out.println(kept[0] + " " + kept[1]);
        System.out.println(args.length);
    }
}
