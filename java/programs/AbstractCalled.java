// A method that its superclass has since made abstract, so that a call finds no code.
class AbstractCalled {
    public static void main(String[] args) {
        Base base = new Sub();
        System.out.println(base.one());
        System.out.println(base.two(7));
    }
}

class Base {
    int one() {
        return 1;
    }

    int two(int n) {
        return n;
    }
}

class Sub extends Base {
}
