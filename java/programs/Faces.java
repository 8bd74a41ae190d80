// instanceof and casts over a lattice of interfaces and classes.
class Faces {
    interface A {
    }

    interface B extends A {
    }

    interface C extends A {
    }

    interface D extends B, C {
        int value();
    }

    static class One implements A {
    }

    static class Two extends One implements B {
    }

    static class Three extends Two implements Runnable {
        public void run() {
            System.out.println("run by Three");
        }
    }

    static class Four extends Three implements D {
        public int value() {
            return 4;
        }
    }

    static String faces(Object o) {
        return (o instanceof A ? "A" : "-") + (o instanceof B ? "B" : "-") + (o instanceof C ? "C" : "-") + (o instanceof D ? "D" : "-")
            + (o instanceof One ? "1" : "-") + (o instanceof Two ? "2" : "-") + (o instanceof Three ? "3" : "-") + (o instanceof Four ? "4" : "-")
            + (o instanceof Runnable ? "R" : "-") + (o instanceof String ? "S" : "-") + (o instanceof Throwable ? "T" : "-");
    }

    static int casts(Object o) {
        int done = 0;
        try {
            A a = (A) o;
            done += a == o ? 1 : 100;
            B b = (B) a;
            done++;
            C c = (C) b;
            done++;
            done += ((D) c).value();
            ((Runnable) c).run();
            Three t = (Three) c;
            done += t == o ? 10 : 100;
            done += ((String) (Object) t).length();
        } catch (ClassCastException e) {
            return done;
        }
        return -1;
    }

    public static void main(String[] args) {
        Object[] all = {new One(), new Two(), new Three(), new Four(), "text", new RuntimeException(), new Object(), new A[1]};
        for (Object o : all) {
            System.out.println(faces(o) + " " + casts(o));
        }
        Runnable run = new Three();
        run.run();
        new Thread(run).run();
        new Thread().run();
    }
}
