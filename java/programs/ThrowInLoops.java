// Exceptions within loops: the loop goes on, is left, or is begun again; handlers within handlers.
class ThrowInLoops {
    static int tried;

    static int risky(int n) {
        tried++;
        if (n % 3 == 0) {
            throw new IllegalArgumentException("three divides " + n);
        }
        if (n % 5 == 0) {
            throw new UnsupportedOperationException();
        }
        return n;
    }

    static int sumOf(int from, int to) {
        int sum = 0;
        for (int i = from; i < to; i++) {
            try {
                sum += risky(i);
            } catch (IllegalArgumentException e) {
                continue;
            } catch (UnsupportedOperationException e) {
                sum += 1000;
            } finally {
                sum++;
            }
        }
        return sum;
    }

    static int patient(int n) {
        while (true) {
            try {
                return risky(n);
            } catch (RuntimeException e) {
                n++;
            }
        }
    }

    static String unwind(int depth, int at) {
        try {
            if (depth == 0) {
                risky(at);
                return "bottom ";
            }
            return unwind(depth - 1, at) + depth;
        } catch (UnsupportedOperationException e) {
            if (depth < 3) {
                throw e;
            }
            return "caught at " + depth + " ";
        } finally {
            tried += 100;
        }
    }

    public static void main(String[] args) {
        System.out.println(sumOf(1, 20) + " " + tried);
        System.out.println(patient(9) + " " + patient(10) + " " + patient(24) + " " + tried);
        System.out.println(unwind(6, 1));
        System.out.println(unwind(6, 5));
        try {
            unwind(6, 3);
        } catch (IllegalArgumentException e) {
            System.out.println(e.getMessage());
        }
        System.out.println(tried);
        int attempts = 0;
        retry:
        for (;;) {
            attempts++;
            try {
                try {
                    risky(attempts * 3);
                } catch (IllegalArgumentException e) {
                    risky(attempts * 5 + (attempts == 4 ? 1 : 0) - 5);
                }
                break retry;
            } catch (RuntimeException e) {
                if (attempts > 9) {
                    break;
                }
            }
        }
        System.out.println(attempts);
    }
}
