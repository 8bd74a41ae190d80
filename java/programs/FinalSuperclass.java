// A superclass that has since been made final.
class FinalSuperclass {
    public static void main(String[] args) {
        System.out.println("not reached");
    }
}

class Base {
}

class Sub extends Base {
}
