// Inner, local and anonymous classes, which keep the object and the locals round them.
class InnerClasses {
    int total = 100;

    interface Step {
        int next();
    }

    class Counter implements Step {
        int at;

        Counter(int at) {
            this.at = at;
        }

        public int next() {
            total++;
            return at++;
        }

        class Doubled implements Step {
            public int next() {
                return 2 * Counter.this.next() + total * 1000;
            }
        }

        Step doubled() {
            return new Doubled();
        }
    }

    Step counter(int from) {
        return new Counter(from);
    }

    static Step every(final Step step, final int n) {
        class Every implements Step {
            public int next() {
                int last = 0;
                for (int i = 0; i < n; i++) {
                    last = step.next();
                }
                return last;
            }
        }
        return new Every();
    }

    static Step constant(int n) {
        return new Step() {
            int asked;

            public int next() {
                asked++;
                return n * 10 + asked;
            }
        };
    }

    public static void main(String[] args) {
        InnerClasses o = new InnerClasses();
        Step plain = o.counter(5);
        System.out.println(plain.next() + " " + plain.next() + " " + o.total);
        Step third = every(plain, 3);
        System.out.println(third.next() + " " + third.next() + " " + o.total);
        Step doubled = ((Counter) plain).doubled();
        System.out.println(doubled.next() + " " + plain.next());
        Step constant = constant(7);
        System.out.println(constant.next() + " " + every(constant, 4).next());
        InnerClasses other = new InnerClasses();
        System.out.println(other.counter(1).next() + " " + other.total + " " + o.total);
    }
}
