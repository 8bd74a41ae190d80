// finally runs however its try is left: by its end, a return, a break, a continue or a throw.
class NestedFinally {
    static String trace = "";

    static int leave(int how) {
        try {
            trace += "a";
            try {
                trace += "b";
                if (how == 0) {
                    return 1;
                }
                if (how == 1) {
                    throw new RuntimeException("one");
                }
                if (how == 2) {
                    throw new IllegalStateException("two");
                }
                trace += "c";
            } catch (IllegalStateException e) {
                trace += "d";
                return 2;
            } finally {
                trace += "e";
                if (how == 3) {
                    return 3;
                }
            }
            trace += "f";
        } catch (RuntimeException e) {
            trace += e.getMessage();
            return 4;
        } finally {
            trace += "g";
            try {
                trace += "h";
            } finally {
                trace += "i";
            }
        }
        return 5;
    }

    static int kept() {
        int n = 1;
        try {
            return n;
        } finally {
            n = 2;
        }
    }

    static int overThrow() {
        for (int i = 0; ; i++) {
            try {
                if (i == 2) {
                    throw new RuntimeException();
                }
                continue;
            } finally {
                trace += i;
                if (i == 2) {
                    break;
                }
            }
        }
        return 6;
    }

    public static void main(String[] args) {
        for (int how = 0; how < 5; how++) {
            trace = "";
            int left = leave(how);
            System.out.println(left + " " + trace);
        }
        System.out.println(kept());
        trace = "";
        System.out.println(overThrow() + " " + trace);
    }
}
