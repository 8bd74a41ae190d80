// The initialiser of a superclass throws an exception of the program's own.
class InitOfSuperFails {
    static class Oops extends RuntimeException {
    }

    static class Base {
        static {
            if (true) {
                throw new Oops();
            }
        }
    }

    static class Sub extends Base {
        static {
            System.out.println("not reached");
        }
    }

    public static void main(String[] args) {
        System.out.println("before");
        new Sub();
    }
}
