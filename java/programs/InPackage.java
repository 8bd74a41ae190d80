// A class in a package is asked for with its package's name; its file lies right in the folder.
package shapes.plain;

class InPackage {
    static class Inner {
        final String name = "shapes.plain";

        public String toString() {
            return name;
        }
    }

    public static void main(String[] args) {
        System.out.println(new Inner());
        shapes.plain.Beside.hello();
    }
}

class Beside {
    static void hello() {
        System.out.println("hello");
    }
}
