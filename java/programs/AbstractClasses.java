// An abstract class that leaves steps to its subclasses, and calls them while it is built.
class AbstractClasses {
    abstract static class Report {
        private final String title;
        private int lines;

        Report(String title) {
            this.title = title;
            line("begin " + kind());
        }

        abstract String kind();

        abstract void body();

        void line(String text) {
            lines++;
            System.out.println(lines + " " + text);
        }

        final void run() {
            line(title);
            body();
            line("end after " + lines);
        }
    }

    static class Squares extends Report {
        private final int most;

        Squares(int most) {
            super("Squares");
            this.most = most;
        }

        String kind() {
            return "squares up to " + most;
        }

        void body() {
            for (int i = 1; i <= most; i++) {
                line(i + " * " + i + " = " + i * i);
            }
        }
    }

    abstract static class Indented extends Report {
        Indented(String title) {
            super("  " + title);
        }

        void line(String text) {
            super.line("    " + text);
        }
    }

    public static void main(String[] args) {
        new Squares(3).run();
        Report anonymous = new Indented("anonymous") {
            String kind() {
                return "without a name";
            }

            void body() {
                line("body");
            }
        };
        anonymous.run();
    }
}
