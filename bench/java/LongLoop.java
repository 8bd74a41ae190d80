// Private instructions on longs: a linear generator, and shifts.
class LongLoop {
    public static void main(String[] args) {
        long seed = 42;
        for (int i = 0; i < 3000000; i++) {
            seed = seed * 6364136223846793005L + 1442695040888963407L;
            seed ^= seed >>> 33;
        }
        System.out.println(seed);
    }
}
