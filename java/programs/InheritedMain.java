// main may stand in a superclass, which is initialised first.
class InheritedMain extends HasMain {
    static {
        System.out.println("init InheritedMain");
    }
}

class HasMain {
    static {
        System.out.println("init HasMain");
    }

    public static void main(String[] args) {
        System.out.println("main of HasMain");
    }
}
