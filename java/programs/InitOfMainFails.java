// The main class's own initialiser throws.
class InitOfMainFails {
    static {
        System.out.println("begun");
        fail();
    }

    static void fail() {
        throw new IllegalStateException("in <clinit>");
    }

    public static void main(String[] args) {
        System.out.println("not reached");
    }
}
