// A field of objects that was made static, after its reader was compiled.
class InstanceMadeStatic {
    public static void main(String[] args) {
        Box box = new Box();
        System.out.println(box.width);
        System.out.println(box.height);
    }
}

class Box {
    int width = 3;
    int height = 4;
}
