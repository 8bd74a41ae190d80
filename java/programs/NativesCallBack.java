// What println and append call back: a toString that prints, initialises, recurses and throws; a run that a Thread passes on.
class NativesCallBack {
    static class Lazy {
        static int made;

        static {
            System.out.println("(init Lazy)");
        }

        static String next() {
            made++;
            return "lazy " + made;
        }
    }

    static class Talks {
        private final int depth;

        Talks(int depth) {
            this.depth = depth;
        }

        public String toString() {
            System.out.print("[" + depth + "]");
            if (depth == 0) {
                return Lazy.next();
            }
            StringBuilder out = new StringBuilder();
            out.append("<").append(new Talks(depth - 1)).append(">");
            return out.toString();
        }
    }

    static class Throws {
        public String toString() {
            throw new IllegalStateException("no text");
        }
    }

    static class Passes implements Runnable {
        private final Object what;

        Passes(Object what) {
            this.what = what;
        }

        public void run() {
            System.out.println(what);
        }
    }

    public static void main(String[] args) {
        System.out.println(new Talks(3));
        Object[] all = {new Talks(0), new Throws(), "text"};
        StringBuilder text = new StringBuilder("kept ");
        for (Object o : all) {
            try {
                System.out.println(o);
                text.append(o).append('.');
                new Thread(new Passes(o)).run();
            } catch (IllegalStateException e) {
                System.out.println("caught " + e.getMessage());
                try {
                    text.append("before ").append(o).append(" after");
                } catch (IllegalStateException again) {
                    text.append("again, ");
                }
                try {
                    new Thread(new Thread(new Passes(o))).run();
                } catch (RuntimeException last) {
                    System.out.println("through two threads' run");
                }
            }
        }
        System.out.println(text.toString());
        synchronized (System.out) {
            System.out.println(new Talks(1));
        }
    }
}
