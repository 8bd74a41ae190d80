// Fields of objects read and stored, and a virtual call in each turn.
class Fields {
    int n;
    Fields next;

    int step(int by) {
        n += by;
        return n;
    }

    public static void main(String[] args) {
        Fields a = new Fields();
        a.next = new Fields();
        a.next.next = a;
        int sum = 0;
        for (int i = 0; i < 180000; i++) {
            sum ^= a.step(i);
            a = a.next;
        }
        System.out.println(sum);
    }
}
