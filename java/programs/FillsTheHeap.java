// Eight arrays of a million ints fit in 8,388,608 words, and the ninth doesn't.
class FillsTheHeap {
    public static void main(String[] args) {
        int[][] all = null;
        for (int i = 1; ; i++) {
            int[] array = new int[1000000];
            System.out.println(i);
        }
    }
}
