// An instruction on doubles: the class file is refused, with its method and place.
class UsesDouble {
    public static void main(String[] args) {
        System.out.println("not reached");
        double half = args.length;
    }
}
