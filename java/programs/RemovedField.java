// A field that has another type than when it was named is another field.
class RemovedField {
    public static void main(String[] args) {
        Box box = new Box();
        System.out.println(box.name);
        box.size = 4;
        System.out.println(box.size);
    }
}

class Box {
    String name = "box";
    int size;
}
