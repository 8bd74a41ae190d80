// A class that has since been made abstract, at a `new`.
class NewOfAbstract {
    public static void main(String[] args) {
        System.out.println("before");
        System.out.println(new Thing().n);
    }
}

class Thing {
    int n = 4;
}
