// The class of a `new` isn't there. The run goes well up to it.
class MissingAtNew {
    public static void main(String[] args) {
        for (int i = 0; i < 3; i++) {
            System.out.println(i);
            if (i == 2) {
                System.out.println(new Gone().n);
            }
        }
    }
}

class Gone {
    int n = 5;
}
