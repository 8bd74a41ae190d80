// Fields are found by the type that names them: hidden ones, inherited ones, those of interfaces.
class FieldLookup {
    static int made;

    static int next(int n) {
        made++;
        return n;
    }

    interface First {
        int A = next(1);
        int B = next(2);
    }

    interface Second extends First {
        int B = next(20);
        int C = next(30);
    }

    static class Base {
        static int s = 100;
        int f = 5;
        int g = 6;

        int f() {
            return f;
        }
    }

    static class Middle extends Base implements Second {
        int f = 50;

        int both() {
            return f + super.f;
        }
    }

    static class Sub extends Middle {
        static int s = 1000;
        int g = 60;

        int f() {
            return f + g + super.g;
        }
    }

    public static void main(String[] args) {
        Sub sub = new Sub();
        Middle middle = sub;
        Base base = sub;
        System.out.println(sub.f + " " + middle.f + " " + base.f);
        System.out.println(sub.g + " " + middle.g + " " + base.g);
        System.out.println(sub.f() + " " + base.f() + " " + sub.both());
        base.f = 7;
        middle.f = 8;
        sub.g = 9;
        middle.g = 10;
        System.out.println(sub.f() + " " + sub.both() + " " + new Middle().f());
        System.out.println(Sub.s + " " + Middle.s + " " + Base.s);
        Middle.s = 101;
        Sub.s += 1;
        System.out.println(Sub.s + " " + Base.s);
        System.out.println(made);
        System.out.println(Sub.C + " " + made);
        System.out.println(Middle.B + " " + Sub.A + " " + made);
        System.out.println(First.B + " " + made);
    }
}
