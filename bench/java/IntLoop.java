// Private instructions on ints alone: fifteen a turn.
class IntLoop {
    public static void main(String[] args) {
        int sum = 0;
        for (int i = 0; i < 4000000; i++) {
            sum = sum * 31 + (i ^ sum >>> 7);
        }
        System.out.println(sum);
    }
}
