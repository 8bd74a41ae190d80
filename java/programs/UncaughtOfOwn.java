// An exception of the program's own leaves main, behind what was printed.
class UncaughtOfOwn {
    static class Overdrawn extends Exception {
        Overdrawn(String message) {
            super(message);
        }
    }

    static void take(int amount) throws Overdrawn {
        try {
            if (amount > 100) {
                throw new Overdrawn("too much");
            }
            System.out.println("took " + amount);
        } finally {
            System.out.println("done with " + amount);
        }
    }

    public static void main(String[] args) throws Overdrawn {
        take(50);
        take(150);
        take(60);
    }
}
