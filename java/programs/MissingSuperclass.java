// The superclass of a class that the run would never come to isn't there.
class MissingSuperclass {
    public static void main(String[] args) {
        System.out.println("not reached");
    }
}

class Sub extends Gone {
}

class Gone {
}
