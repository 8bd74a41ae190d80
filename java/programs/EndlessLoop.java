// A loop that doesn't end takes all acts.
class EndlessLoop {
    static int turns;

    public static void main(String[] args) {
        System.out.println("round and round");
        while (true) {
            turns++;
        }
    }
}
