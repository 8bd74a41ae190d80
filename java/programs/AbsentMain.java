// The main class has no file.
class AbsentMain {
    public static void main(String[] args) {
        System.out.println("not reached");
    }
}

class Present {
}
