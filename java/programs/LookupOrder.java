// Where fields and methods are found when a class between has since got some of its own.
class LookupOrder {
    public static void main(String[] args) {
        System.out.println(Sub.inBase + " " + Sub.inFace);
        System.out.println(new Sub().own + " " + new Sub().name());
        System.out.println(new Sub().below());
        System.out.println(Sub.hello());
    }
}

class Base {
    static String inBase = "field of Base";
    String own = "own of Base";

    String name() {
        return "name of Base";
    }

    static String hello() {
        return "hello of Base";
    }
}

interface Face {
    String inFace = new StringBuilder("field of the interface as it was").toString();
}

class Middle extends Base implements Face {
}

class Sub extends Middle {
    String below() {
        return super.name();
    }
}
