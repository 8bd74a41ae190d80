// A class that no longer has an interface, at a call by that interface.
class NoLongerImplements {
    interface Face {
        int value(int n);
    }

    static void show(Face face) {
        System.out.println(face.value(20));
    }

    public static void main(String[] args) {
        show(new Kept());
        show(new Changed());
    }
}

class Kept implements NoLongerImplements.Face {
    public int value(int n) {
        return n + 1;
    }
}

class Changed implements NoLongerImplements.Face {
    public int value(int n) {
        return n + 2;
    }
}
