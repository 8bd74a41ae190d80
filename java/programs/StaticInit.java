// A class is initialised when it is first used, after its superclass, and once.
class StaticInit {
    static String say(String text) {
        System.out.println("init " + text);
        return text;
    }

    static class Base {
        static String b = say("Base.b");

        static {
            System.out.println("Base block");
        }

        static void hello() {
            System.out.println("hello");
        }
    }

    static class Sub extends Base {
        static final int CONSTANT = 5;
        static final String TEXT = "constant";
        static final int[] TABLE = {1, 2, 3};
        static String s = say("Sub.s");
        int own = say("Sub.own").length();
    }

    static class Never {
        static String n = say("Never.n");
    }

    static class ByStore {
        static int value;

        static {
            value = 7;
            say("ByStore " + value);
        }
    }

    static class ByCall {
        static {
            say("ByCall");
        }

        static int answer() {
            return 42;
        }
    }

    static {
        say("StaticInit");
    }

    public static void main(String[] args) {
        System.out.println("main");
        System.out.println(Sub.CONSTANT);
        System.out.println(Sub.TEXT);
        Sub[] subs = new Sub[2];
        Never[] nevers = new Never[1];
        Object o = subs;
        System.out.println(o instanceof Never[]);
        System.out.println(Sub.b);
        Sub.hello();
        System.out.println(Sub.TABLE[1]);
        subs[0] = new Sub();
        subs[1] = new Sub();
        ByStore.value = 8;
        System.out.println(ByStore.value);
        System.out.println(ByCall.answer() + ByCall.answer());
        Never never = null;
        System.out.println(never == nevers[0]);
    }
}
