// A new object in each turn, which refers to the one before.
class Objects {
    Objects before;

    Objects(Objects before) {
        this.before = before;
    }

    public static void main(String[] args) {
        Objects last = null;
        for (int i = 0; i < 200000; i++) {
            last = new Objects(last);
        }
        System.out.println(last.before != null);
    }
}
