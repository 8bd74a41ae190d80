// A char past a text's end.
class UncaughtCharAt {
    public static void main(String[] args) {
        System.out.println("ab".charAt(1));
        System.out.println("ab".charAt(2));
        System.out.println("not reached");
    }
}
