// What the machine itself throws, by each instruction that does.
class MachineExceptions {
    int field;
    int[] array;
    static Object nothing;

    int method() {
        return field;
    }

    static void act(int which) {
        MachineExceptions none = null;
        int[] ints = new int[2];
        switch (which) {
            case 0: System.out.println(none.field); break;
            case 1: none.field = 1; break;
            case 2: System.out.println(none.method()); break;
            case 3: System.out.println(none.array.length); break;
            case 4: ints = null; System.out.println(ints.length); break;
            case 5: System.out.println(ints[2]); break;
            case 6: ints[-1] = 3; break;
            case 7: System.out.println(new int[-1].length); break;
            case 8: System.out.println(new String[-5].length); break;
            case 9: Object[] objects = new String[1]; objects[0] = new Object(); break;
            case 10: Object text = "text"; System.out.println(((MachineExceptions) text).field); break;
            case 11: System.out.println(1 / ints[0]); break;
            case 12: System.out.println(1L % ints[1]); break;
            case 13: synchronized (nothing) { System.out.println("held"); } break;
            case 14: RuntimeException e = null; throw e;
            case 15: System.out.println("ab".charAt(-1)); break;
            case 16: String s = null; System.out.println(s.length()); break;
            case 17: byte[] bytes = null; bytes[0] = 1; break;
            case 18: System.out.println(((Object[]) (Object) ints).length); break;
            default: System.out.println("no such case");
        }
    }

    static String kind(RuntimeException e) {
        if (e instanceof NullPointerException) return "NullPointer";
        if (e instanceof ArrayIndexOutOfBoundsException) return "ArrayIndex";
        if (e instanceof StringIndexOutOfBoundsException) return "StringIndex";
        if (e instanceof NegativeArraySizeException) return "NegativeArraySize";
        if (e instanceof ArrayStoreException) return "ArrayStore";
        if (e instanceof ClassCastException) return "ClassCast";
        if (e instanceof ArithmeticException) return "Arithmetic";
        return "another";
    }

    public static void main(String[] args) {
        for (int which = 0; which < 20; which++) {
            try {
                act(which);
            } catch (RuntimeException e) {
                System.out.println(which + " " + kind(e));
            }
        }
    }
}
