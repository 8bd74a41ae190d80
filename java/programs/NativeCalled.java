// A native method of the program's own.
class NativeCalled {
    static native int beep(int times);

    public static void main(String[] args) {
        System.out.println("before");
        System.out.println(beep(3));
    }
}
