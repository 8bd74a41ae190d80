// An exception of the library that the program itself throws, past a handler of another class.
class UncaughtBuiltIn {
    public static void main(String[] args) {
        try {
            throw new UnsupportedOperationException("not yet");
        } catch (IllegalStateException e) {
            System.out.println("not reached");
        } finally {
            System.out.println("finally");
        }
    }
}
