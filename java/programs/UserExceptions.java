// Exceptions of a program's own, with messages, fields and causes of their own.
class UserExceptions {
    static class Failure extends Exception {
        final int code;
        final Throwable because;

        Failure(String message, int code, Throwable because) {
            super(message);
            this.code = code;
            this.because = because;
        }
    }

    static class Quiet extends RuntimeException {
    }

    static class Renamed extends Quiet {
        public String getMessage() {
            return "renamed " + super.getMessage();
        }
    }

    static class Fatal extends Error {
        Fatal() {
            super("fatal");
        }
    }

    static void fail(int depth) throws Failure {
        if (depth == 0) {
            throw new Failure("bottom", 0, null);
        }
        try {
            fail(depth - 1);
        } catch (Failure f) {
            throw new Failure("level " + depth, f.code + depth, f);
        }
    }

    public static void main(String[] args) {
        try {
            fail(4);
        } catch (Failure f) {
            System.out.println(f.code);
            Throwable t = f;
            while (t != null) {
                System.out.println(t.getMessage());
                t = t instanceof Failure ? ((Failure) t).because : null;
            }
        }
        RuntimeException[] quiet = {new Quiet(), new Renamed(), new RuntimeException("plain"), new RuntimeException()};
        for (RuntimeException e : quiet) {
            try {
                throw e;
            } catch (Quiet q) {
                System.out.println("quiet " + q.getMessage() + " " + (q == e));
            } catch (RuntimeException other) {
                System.out.println(other.getMessage());
            }
        }
        try {
            throw new Fatal();
        } catch (Throwable t) {
            System.out.println(t.getMessage() + " " + (t instanceof Exception) + " " + (t instanceof Error));
        }
    }
}
