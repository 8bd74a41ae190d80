// The order in which constructors, field initialisers and blocks run, and calls of overridden methods on the way.
class Constructors {
    static int step;

    static int log(String what) {
        step++;
        System.out.println(step + " " + what);
        return step;
    }

    static class Base {
        int a = log("Base.a");

        {
            log("Base block");
        }

        Base() {
            this(log("argument of this"));
            log("Base()");
        }

        Base(int n) {
            log("Base(int) " + n);
            hook();
        }

        void hook() {
            log("Base.hook");
        }
    }

    static class Sub extends Base {
        int b = log("Sub.b");
        String text = "set";
        final int constant = 9;
        int computed;

        {
            computed = b * 2;
        }

        Sub() {
            log("Sub() " + text);
        }

        Sub(int n) {
            super(n);
            log("Sub(int)");
        }

        void hook() {
            log("Sub.hook b=" + b + " text=" + text + " constant=" + constant + " computed=" + computed);
        }
    }

    static class Fails {
        static Fails last;
        int half = 1;

        Fails(boolean fail) {
            last = this;
            half = 2;
            if (fail) {
                throw new IllegalArgumentException("not built");
            }
            half = 3;
        }
    }

    public static void main(String[] args) {
        Sub sub = new Sub();
        System.out.println(sub.a + " " + sub.b + " " + sub.computed);
        new Sub(77);
        try {
            new Fails(true);
        } catch (IllegalArgumentException e) {
            System.out.println(e.getMessage() + " " + Fails.last.half);
        }
        System.out.println(new Fails(false).half);
    }
}
