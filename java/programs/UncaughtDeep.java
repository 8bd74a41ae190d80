// A null pointer many calls deep, past synchronized methods, a cleaning finally and a rethrow.
class UncaughtDeep {
    int[] none;

    synchronized int deep(int n) {
        if (n == 0) {
            return none[0];
        }
        try {
            return deep(n - 1);
        } finally {
            if (n % 10 == 0) {
                System.out.println("left " + n);
            }
        }
    }

    public static void main(String[] args) {
        try {
            new UncaughtDeep().deep(40);
        } catch (RuntimeException e) {
            System.out.println("thrown again");
            throw e;
        }
    }
}
