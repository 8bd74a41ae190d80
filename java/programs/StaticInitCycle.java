// Two classes whose initialisers need each other: the second sees the first as it is by then.
class StaticInitCycle {
    static class A {
        static int early = 1;
        static int fromB = B.value + 1;
        static int late = 2;

        static int sum() {
            return early * 10000 + fromB * 100 + late;
        }
    }

    static class B {
        static int seenEarly = A.early;
        static int seenLate = A.late;
        static int value = A.sum() + 5;
    }

    static class Once {
        static final Once ONLY = new Once();
        static int count = 3;
        int seen;

        Once() {
            seen = count;
            count++;
        }
    }

    static class Parent {
        static int n = Child.m + 1;

        static int peek() {
            return n;
        }
    }

    static class Child extends Parent {
        static int m = Parent.peek() + 10;
    }

    public static void main(String[] args) {
        System.out.println(A.early + " " + A.fromB + " " + A.late);
        System.out.println(B.seenEarly + " " + B.seenLate + " " + B.value);
        System.out.println(Once.ONLY.seen + " " + Once.count);
        System.out.println(Child.m + " " + Parent.n);
    }
}
