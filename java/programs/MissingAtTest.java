// The class of an `instanceof` isn't there.
class MissingAtTest {
    public static void main(String[] args) {
        Object[] all = {"text", new MissingAtTest()};
        System.out.println(all[0] instanceof String);
        System.out.println(all[1] instanceof Gone);
    }
}

class Gone {
}
