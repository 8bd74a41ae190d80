// A method that was there when its caller was compiled.
class RemovedMethod {
    public static void main(String[] args) {
        System.out.println(Tool.twice(4));
        System.out.println(Tool.thrice(4, 2L));
    }
}

class Tool {
    static int twice(int n) {
        return 2 * n;
    }

    static long thrice(int n, long m) {
        return 3 * n * m;
    }
}
