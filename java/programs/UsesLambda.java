// A lambda: the class file is refused at its invokedynamic.
class UsesLambda {
    public static void main(String[] args) {
        Runnable r = () -> {
        };
        r.run();
    }
}
