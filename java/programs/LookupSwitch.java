// Switches over keys that lie far apart, one in another, and one in a loop with continue.
class LookupSwitch {
    static int find(int n) {
        switch (n) {
            case -2147483648: return 1;
            case -1000: return 2;
            case 0: return 3;
            case 7: return 4;
            case 1000000: return 5;
            case 2147483647: return 6;
            default: return -1;
        }
    }

    static String nested(int a, int b) {
        switch (a) {
            case 100:
                switch (b) {
                    case 5: return "100 5";
                    case 500: break;
                    default: return "100 other";
                }
                return "100 500";
            case 10000:
                return "10000";
        }
        return "none";
    }

    static int none(int n) {
        switch (n) {
            default: return n * 2;
        }
    }

    static int vowels(String text) {
        int count = 0;
        for (int i = 0; i < text.length(); i++) {
            switch (text.charAt(i)) {
                case 'a': case 'e': case 'i': case 'o': case 'u':
                    count++;
                    continue;
                case '!':
                    return -count;
                case ' ':
                    break;
                default:
                    continue;
            }
            count += 100;
        }
        return count;
    }

    public static void main(String[] args) {
        int[] keys = {-2147483648, -2147483647, -1001, -1000, -1, 0, 1, 6, 7, 8, 999999, 1000000, 2147483646, 2147483647};
        for (int key : keys) {
            System.out.println(key + " " + find(key));
        }
        System.out.println(nested(100, 5) + ", " + nested(100, 6) + ", " + nested(100, 500) + ", " + nested(10000, 0) + ", " + nested(0, 0));
        System.out.println(none(21));
        System.out.println(vowels("an example of text") + " " + vowels("stop here! not there"));
    }
}
