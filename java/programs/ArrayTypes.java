// Casts and instanceof over arrays, and stores that the array's type refuses.
class ArrayTypes {
    interface Face {
    }

    static class Base {
    }

    static class Sub extends Base implements Face {
    }

    static String types(Object o) {
        String s = "";
        s += o instanceof Object ? "O" : "-";
        s += o instanceof Object[] ? "o" : "-";
        s += o instanceof Object[][] ? "p" : "-";
        s += o instanceof int[] ? "i" : "-";
        s += o instanceof int[][] ? "j" : "-";
        s += o instanceof long[] ? "l" : "-";
        s += o instanceof byte[] ? "b" : "-";
        s += o instanceof boolean[] ? "z" : "-";
        s += o instanceof Base[] ? "B" : "-";
        s += o instanceof Face[] ? "F" : "-";
        s += o instanceof String[] ? "S" : "-";
        s += o instanceof Cloneable ? "c" : "-";
        s += o instanceof java.io.Serializable ? "s" : "-";
        s += o instanceof Cloneable[] ? "d" : "-";
        return s;
    }

    static void store(Object[] into, Object value) {
        try {
            into[0] = value;
            System.out.println("stored");
        } catch (ArrayStoreException e) {
            System.out.println("refused");
        }
    }

    public static void main(String[] args) {
        Object[] all = {
            new int[1], new int[1][], new long[0], new byte[1], new boolean[1], new Object[1], new Object[1][], new Base[1],
            new Sub[1], new Face[1], new String[1], new Sub[1][], "text", new Sub(), null, new int[1][][]
        };
        for (Object o : all) {
            System.out.println(types(o));
        }
        store(new Object[1], "text");
        store(new String[1], "text");
        store(new String[1], new Base());
        store(new Base[1], new Sub());
        store(new Sub[1], new Base());
        store(new Face[1], new Sub());
        store(new Face[1], new Base());
        store(new Sub[1], null);
        store(new Object[1][], new int[1][]);
        store(new Object[1][], new int[1]);
        store(new int[1][], new int[1]);
        store(new int[1][], new long[1]);
        store(new Cloneable[1], new int[1]);
        Base[] bases = (Base[]) all[8];
        System.out.println(bases.length);
        try {
            Sub[] subs = (Sub[]) all[7];
            System.out.println(subs.length);
        } catch (ClassCastException e) {
            System.out.println("no Sub[]");
        }
    }
}
