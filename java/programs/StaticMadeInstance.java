// A static method that was made one of objects, after its caller was compiled.
class StaticMadeInstance {
    public static void main(String[] args) {
        System.out.println(Tool.one());
        System.out.println(Tool.two("text"));
    }
}

class Tool {
    static int one() {
        return 1;
    }

    static int two(String s) {
        return 2;
    }
}
