// Every comparison of ints and longs, and conditions that stop early.
class Comparisons {
    static int asked;

    static boolean yes(String what) {
        asked++;
        System.out.print(what);
        return true;
    }

    static boolean no(String what) {
        asked++;
        System.out.print(what);
        return false;
    }

    static String ints(int a, int b) {
        return (a == b ? "E" : "-") + (a != b ? "N" : "-") + (a < b ? "L" : "-") + (a <= b ? "l" : "-")
            + (a > b ? "G" : "-") + (a >= b ? "g" : "-");
    }

    static String zero(int a) {
        return (a == 0 ? "E" : "-") + (a != 0 ? "N" : "-") + (a < 0 ? "L" : "-") + (a <= 0 ? "l" : "-")
            + (a > 0 ? "G" : "-") + (a >= 0 ? "g" : "-");
    }

    static String longs(long a, long b) {
        return (a == b ? "E" : "-") + (a != b ? "N" : "-") + (a < b ? "L" : "-") + (a <= b ? "l" : "-")
            + (a > b ? "G" : "-") + (a >= b ? "g" : "-");
    }

    public static void main(String[] args) {
        int[] values = {-2147483648, -1, 0, 1, 2147483647};
        for (int a : values) {
            System.out.println(zero(a));
            for (int b : values) {
                System.out.println(a + " " + b + " " + ints(a, b) + " " + longs(a, b) + " " + longs(a * 4294967296L, b));
            }
        }
        boolean all = yes("1") && no("2") && yes("3");
        boolean any = no("4") || yes("5") || no("6");
        boolean both = no("7") & yes("8");
        boolean either = yes("9") | no("A");
        boolean differ = yes("B") ^ yes("C");
        System.out.println();
        System.out.println(all + " " + any + " " + both + " " + either + " " + differ + " " + asked);
        boolean not = !all;
        not &= any;
        not ^= true;
        System.out.println(not);
    }
}
