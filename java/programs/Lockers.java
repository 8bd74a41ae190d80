// A hundred lockers, and a hundred children of whom the k-th turns each k-th one: which are open?
class Lockers {
    static boolean[] turned(int count) {
        boolean[] open = new boolean[count + 1];
        for (int child = 1; child <= count; child++) {
            for (int locker = child; locker <= count; locker += child) {
                open[locker] = !open[locker];
            }
        }
        return open;
    }

    public static void main(String[] args) {
        boolean[] open = turned(100);
        for (int i = 0; i < open.length; i++) {
            if (open[i]) {
                System.out.print(i);
                System.out.print(' ');
            }
        }
        System.out.println();
        int count = 0;
        for (boolean is : turned(2000)) {
            count += is ? 1 : 0;
        }
        System.out.println(count);
        // the sieve of the lucky numbers: of those left, each second, then each third, then each seventh is struck
        int[] left = new int[200];
        int size = 0;
        for (int i = 1; i < 400; i += 2) {
            left[size++] = i;
        }
        for (int at = 1; at < size && left[at] <= size; at++) {
            int step = left[at];
            int kept = 0;
            for (int i = 0; i < size; i++) {
                if ((i + 1) % step != 0) {
                    left[kept++] = left[i];
                }
            }
            size = kept;
        }
        StringBuilder lucky = new StringBuilder();
        for (int i = 0; i < 20; i++) {
            lucky.append(left[i]).append(' ');
        }
        System.out.println(lucky.toString());
        System.out.println(size + " " + left[size - 1]);
    }
}
