// Switches over neighbouring keys: gaps, falling through, keys below 0, the least and greatest ints.
class TableSwitch {
    static String day(int n) {
        switch (n) {
            case 0: return "Sunday";
            case 1: return "Monday";
            case 2: return "Tuesday";
            case 4: return "Thursday";
            default: return "no day";
            case 5:
            case 6: return "Friday or Saturday";
        }
    }

    static int fall(int n) {
        int sum = 0;
        switch (n) {
            case -2: sum += 1;
            case -1: sum += 10;
            case 0: sum += 100; break;
            case 1: sum += 1000;
            default: sum += 10000;
            case 2: sum += 100000;
        }
        return sum;
    }

    static int edge(int n) {
        switch (n) {
            case 2147483645: return 1;
            case 2147483646: return 2;
            case 2147483647: return 3;
        }
        switch (n) {
            case -2147483648: return 4;
            case -2147483647: return 5;
            case -2147483646: return 6;
        }
        return 0;
    }

    static char grade(char c) {
        switch (c) {
            case 'a': return 'A';
            case 'b': return 'B';
            case 'c': return 'C';
            default: return '?';
        }
    }

    public static void main(String[] args) {
        for (int n = -1; n < 8; n++) {
            System.out.println(day(n));
        }
        for (int n = -3; n < 4; n++) {
            System.out.println(fall(n));
        }
        int[] edges = {-2147483648, -2147483647, -2147483646, -2147483645, 0, 2147483644, 2147483645, 2147483646, 2147483647};
        for (int n : edges) {
            System.out.println(edge(n));
        }
        for (char c = '`'; c < 'e'; c++) {
            System.out.print(grade(c));
        }
        System.out.println();
    }
}
