// What finally throws stands in place of what the try threw.
class UncaughtFinally {
    static int zero;

    public static void main(String[] args) {
        try {
            throw new IllegalArgumentException("lost");
        } finally {
            System.out.println(7 / zero);
        }
    }
}
