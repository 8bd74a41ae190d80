// The k-th child turns each k-th locker: a sieve over a boolean array, with two accesses a turn.
class Lockers {
    public static void main(String[] args) {
        int size = 30000;
        boolean[] open = new boolean[size];
        for (int child = 1; child < size; child++) {
            for (int i = child; i < size; i += child) {
                open[i] = !open[i];
            }
        }
        int count = 0;
        for (int i = 0; i < size; i++) {
            if (open[i]) {
                count++;
            }
        }
        System.out.println(count);
    }
}
