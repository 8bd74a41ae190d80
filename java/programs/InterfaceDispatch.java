// Calls by interfaces reach the class's own method, or one that it inherits.
class InterfaceDispatch {
    interface Shape {
        int area();
    }

    interface Named {
        String name();
    }

    interface NamedShape extends Shape, Named {
        long scaled(long by, int times);
    }

    static class Square implements NamedShape {
        final int side;

        Square(int side) {
            this.side = side;
        }

        public int area() {
            return side * side;
        }

        public String name() {
            return "square";
        }

        public long scaled(long by, int times) {
            return area() * by * times;
        }
    }

    static class Base {
        public int area() {
            return 10;
        }
    }

    static class Inherits extends Base implements Shape, Named {
        public String name() {
            return "inherits";
        }
    }

    static class Big extends Square {
        Big(int side) {
            super(side * 100);
        }

        public String name() {
            return "big " + super.name();
        }
    }

    public static void main(String[] args) {
        Shape[] shapes = {new Square(3), new Inherits(), new Big(2)};
        int sum = 0;
        for (Shape shape : shapes) {
            sum += shape.area();
            if (shape instanceof Named) {
                System.out.println(((Named) shape).name());
            }
            if (shape instanceof NamedShape) {
                System.out.println(((NamedShape) shape).scaled(1000000000L, 2));
            }
        }
        System.out.println(sum);
        System.out.println(shapes[1] instanceof NamedShape);
        Object other = new Base();
        System.out.println(other instanceof Shape);
        try {
            System.out.println(((Shape) other).area());
        } catch (ClassCastException e) {
            System.out.println("no Shape");
        }
    }
}
