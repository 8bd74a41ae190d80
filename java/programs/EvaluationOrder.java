// Operands are worked out from the left, before what is done with them.
class EvaluationOrder {
    static String trace = "";
    int field = 1;

    static int n(int value) {
        trace += value;
        return value;
    }

    static int[] array(int[] a, String name) {
        trace += name;
        return a;
    }

    static EvaluationOrder none() {
        trace += "N";
        return null;
    }

    static int three(int a, int b, int c) {
        return a * 100 + b * 10 + c;
    }

    static void show(int result) {
        System.out.println(result + " " + trace);
        trace = "";
    }

    public static void main(String[] args) {
        int[] a = {1, 2, 3, 4, 5};
        int i = 0;
        a[i] = i = 2;
        System.out.println(a[0] + " " + i);
        i = i++ + ++i;
        System.out.println(i);
        i = 1;
        i += i++ * 10 + i;
        System.out.println(i);
        int j = 0;
        a[j++] += a[j++] * 10 + a[j];
        System.out.println(a[0] + " " + j);
        show(n(1) + n(2) * n(3) - n(4) / n(5));
        show(three(n(1), n(2) + n(3), n(4)));
        show(array(a, "A")[n(1)] = n(7));
        show(array(a, "A")[n(2)] += n(8));
        try {
            array(null, "Z")[n(3)] = n(4);
        } catch (NullPointerException e) {
            show(-1);
        }
        try {
            array(a, "A")[n(9)] = n(5) / n(0);
        } catch (ArithmeticException e) {
            show(-2);
        }
        try {
            none().field = n(6);
        } catch (NullPointerException e) {
            show(-3);
        }
        EvaluationOrder o = new EvaluationOrder();
        EvaluationOrder p = o;
        p.field = (p = new EvaluationOrder()).field + 5;
        System.out.println(o.field + " " + p.field);
        long l = 5;
        l += l++ - --l;
        System.out.println(l);
        int x = 3;
        x = x-- - --x;
        System.out.println(x);
        boolean b = false;
        System.out.println((b = true) | b ? b : !b);
    }
}
