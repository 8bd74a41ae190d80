// Methods: overridden, hidden, private, overloaded, and asked of the superclass.
class MethodLookup {
    static class A {
        private String secret() {
            return "A.secret";
        }

        String asks() {
            return secret() + " " + open() + " " + still();
        }

        String open() {
            return "A.open";
        }

        static String still() {
            return "A.still";
        }

        String take(Object o) {
            return "object";
        }

        String take(String s) {
            return "string";
        }

        String take(int i) {
            return "int";
        }

        String take(long l) {
            return "long";
        }

        String take(char c) {
            return "char";
        }
    }

    static class B extends A {
        String secret() {
            return "B.secret";
        }

        String open() {
            return "B.open over " + super.open();
        }

        static String still() {
            return "B.still";
        }
    }

    static class C extends B {
        String open() {
            return "C.open over " + super.open();
        }

        String take(Object o) {
            return "C " + super.take(o);
        }
    }

    public static void main(String[] args) {
        A[] all = {new A(), new B(), new C()};
        byte b = 1;
        short s = 2;
        Object o = "text";
        for (A a : all) {
            System.out.println(a.asks());
            System.out.println(a.take(o) + a.take("s") + a.take(1) + a.take(2L) + a.take('c') + a.take(b) + a.take(s));
        }
        System.out.println(new B().secret() + " " + new C().secret());
        System.out.println(A.still() + " " + B.still() + " " + C.still());
    }
}
