// The class that a handler names isn't there. It is looked for once something is thrown, behind a handler that doesn't fit.
class MissingAtCatch {
    static int divide(int a, int b) {
        try {
            return a / b;
        } catch (IllegalStateException e) {
            return -1;
        } catch (Gone e) {
            return -2;
        } catch (ArithmeticException e) {
            return -3;
        }
    }

    public static void main(String[] args) {
        System.out.println(divide(7, 2));
        System.out.println(divide(7, 0));
    }
}

class Gone extends RuntimeException {
}
