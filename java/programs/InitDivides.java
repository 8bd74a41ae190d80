// An initialiser that divides by zero. No handler catches it.
class InitDivides {
    static class Bad {
        static int zero;
        static int value;

        static {
            System.out.println("dividing");
            value = 1 / zero;
        }
    }

    public static void main(String[] args) {
        System.out.println("before");
        try {
            System.out.println(Bad.value);
        } catch (RuntimeException e) {
            System.out.println("not reached");
        }
    }
}
