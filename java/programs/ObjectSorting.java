// Records sorted by orders that are objects, alone and one after the other.
class ObjectSorting {
    static final class Person {
        final String name;
        final int age;

        Person(String name, int age) {
            this.name = name;
            this.age = age;
        }

        public String toString() {
            return name + "(" + age + ")";
        }
    }

    interface Order {
        int compare(Person a, Person b);
    }

    static class ByAge implements Order {
        public int compare(Person a, Person b) {
            return a.age - b.age;
        }
    }

    static class ByName implements Order {
        public int compare(Person a, Person b) {
            int least = a.name.length() < b.name.length() ? a.name.length() : b.name.length();
            for (int i = 0; i < least; i++) {
                int d = a.name.charAt(i) - b.name.charAt(i);
                if (d != 0) {
                    return d;
                }
            }
            return a.name.length() - b.name.length();
        }
    }

    static class Reversed implements Order {
        private final Order of;

        Reversed(Order of) {
            this.of = of;
        }

        public int compare(Person a, Person b) {
            return of.compare(b, a);
        }
    }

    static class Then implements Order {
        private final Order[] orders;

        Then(Order... orders) {
            this.orders = orders;
        }

        public int compare(Person a, Person b) {
            for (Order order : orders) {
                int d = order.compare(a, b);
                if (d != 0) {
                    return d;
                }
            }
            return 0;
        }
    }

    static void show(Person[] people, Order order) {
        Person[] sorted = new Person[people.length];
        for (int i = 0; i < people.length; i++) {
            int at = i;
            while (at > 0 && order.compare(people[i], sorted[at - 1]) < 0) {
                sorted[at] = sorted[at - 1];
                at--;
            }
            sorted[at] = people[i];
        }
        StringBuilder line = new StringBuilder();
        for (Person person : sorted) {
            line.append(person).append(' ');
        }
        System.out.println(line.toString());
    }

    public static void main(String[] args) {
        String[] names = {"Ada", "Grace", "Alan", "Edsger", "Barbara", "Al", "Tony"};
        int[] ages = {36, 85, 41, 72, 36, 41, 36};
        Person[] people = new Person[names.length];
        for (int i = 0; i < names.length; i++) {
            people[i] = new Person(names[i], ages[i]);
        }
        show(people, new ByAge());
        show(people, new ByName());
        show(people, new Reversed(new ByName()));
        show(people, new Then(new ByAge(), new Reversed(new ByName())));
        show(people, new Then());
    }
}
