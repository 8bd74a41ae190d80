// A Throwable that is neither an Exception nor caught as one.
class UncaughtError {
    static class Odd extends Throwable {
    }

    public static void main(String[] args) throws Throwable {
        try {
            throw new Odd();
        } catch (Exception e) {
            System.out.println("not reached");
        }
    }
}
