// The first handler that fits takes a throwable; what is thrown in a handler passes the others by.
class CatchOrder {
    static class Low extends Exception {
        Low(String message) {
            super(message);
        }
    }

    static class Lower extends Low {
        Lower() {
            super("lower");
        }
    }

    static void raise(int which) throws Exception {
        switch (which) {
            case 0:
                throw new Low("low");
            case 1:
                throw new Lower();
            case 2:
                throw new IllegalArgumentException("argument");
            case 3:
                throw new Exception("any");
            case 4:
                int[] none = null;
                none[0] = 1;
                break;
            default:
                System.out.println("nothing raised");
        }
    }

    static String caught(int which) {
        try {
            raise(which);
        } catch (Lower e) {
            return "Lower " + e.getMessage();
        } catch (Low e) {
            return "Low " + e.getMessage();
        } catch (IllegalArgumentException | NullPointerException e) {
            return "either";
        } catch (Exception e) {
            return "Exception " + e.getMessage();
        }
        return "none";
    }

    static void again(int which) throws Low {
        try {
            try {
                raise(which);
            } catch (Lower e) {
                System.out.println("again");
                throw e;
            } catch (RuntimeException e) {
                throw new Low("from a RuntimeException");
            } catch (Exception e) {
                System.out.println("swallowed " + e.getMessage());
            }
        } catch (Lower e) {
            throw new Low("outer of " + e.getMessage());
        }
    }

    public static void main(String[] args) {
        for (int which = 0; which < 6; which++) {
            System.out.println(caught(which));
            try {
                again(which);
            } catch (Low e) {
                System.out.println(e.getMessage());
            }
        }
    }
}
