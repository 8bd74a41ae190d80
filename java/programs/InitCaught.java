// An initialiser that throws and catches within itself ends well.
class InitCaught {
    static int[] table = new int[4];
    static int filled;
    static String log = "";

    static class Loader {
        static final int[] DATA;
        static int errors;

        static {
            int[] data = new int[3];
            for (int i = 0; i < 6; i++) {
                try {
                    data[i] = 100 / (i - 1);
                    log += "s" + i;
                } catch (ArithmeticException e) {
                    errors++;
                    log += "z" + i;
                } catch (ArrayIndexOutOfBoundsException e) {
                    errors += 10;
                    log += "x" + i;
                } finally {
                    log += ".";
                }
            }
            DATA = data;
        }
    }

    static {
        for (filled = 0; filled < table.length; filled++) {
            table[filled] = filled * filled;
        }
    }

    public static void main(String[] args) {
        System.out.println(filled + " " + table[3]);
        System.out.println(Loader.errors);
        System.out.println(log);
        for (int n : Loader.DATA) {
            System.out.println(n);
        }
    }
}
