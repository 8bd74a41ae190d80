// A static that has since become a constant: it is there before its class's initialiser has run.
class MadeConstant {
    public static void main(String[] args) {
        System.out.println(Values.number + " " + Values.wide + " " + Values.text + " " + Values.letter + " " + Values.flag);
        System.out.println(Values.small + " " + Values.seen);
    }
}

class Values {
    static int number;
    static long wide;
    static String text;
    static char letter;
    static boolean flag;
    static byte small;
    static String seen;
}
