// A recursion that doesn't end takes all slots of frames: seven each, of 65,536.
class EndlessRecursion {
    static int down(int n) {
        return down(n + 1) + 1;
    }

    public static void main(String[] args) {
        System.out.println("down");
        System.out.println(down(0));
    }
}
