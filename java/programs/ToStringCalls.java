// println and append ask an object for its text by its class's toString, the one that overrides the others.
class ToStringCalls {
    static int calls;

    interface Named {
        String name();
    }

    static class Animal implements Named {
        public String name() {
            return "animal";
        }

        public String toString() {
            calls++;
            return "a " + name();
        }
    }

    static class Dog extends Animal {
        public String name() {
            return "dog";
        }
    }

    static class Puppy extends Dog {
        public String toString() {
            return "young: " + super.toString();
        }
    }

    static class Nothing {
        public String toString() {
            return null;
        }
    }

    static class Problem extends RuntimeException {
        Problem(String message) {
            super(message);
        }

        public String toString() {
            return "problem, " + getMessage();
        }
    }

    public static void main(String[] args) {
        Object[] all = {new Animal(), new Dog(), new Puppy(), "text", null, new Nothing(), new Problem("big")};
        for (Object o : all) {
            System.out.println(o);
        }
        StringBuilder b = new StringBuilder();
        for (Object o : all) {
            b.append(o).append('/');
        }
        System.out.println(b.toString());
        for (Object o : all) {
            if (!(o instanceof Nothing)) {
                System.out.print(o);
                System.out.print(' ');
            }
        }
        System.out.println();
        System.out.println(calls);
    }
}
