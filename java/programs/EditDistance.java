// How far two words are apart, and what they have in common, by tables.
class EditDistance {
    static int least(int a, int b, int c) {
        int m = a < b ? a : b;
        return m < c ? m : c;
    }

    static int distance(String a, String b) {
        int[][] table = new int[a.length() + 1][];
        for (int i = 0; i <= a.length(); i++) {
            table[i] = new int[b.length() + 1];
            for (int j = 0; j <= b.length(); j++) {
                if (i == 0 || j == 0) {
                    table[i][j] = i + j;
                } else {
                    int change = a.charAt(i - 1) == b.charAt(j - 1) ? 0 : 1;
                    table[i][j] = least(table[i - 1][j] + 1, table[i][j - 1] + 1, table[i - 1][j - 1] + change);
                }
            }
        }
        return table[a.length()][b.length()];
    }

    static String common(String a, String b) {
        String[] row = new String[b.length() + 1];
        for (int j = 0; j <= b.length(); j++) {
            row[j] = "";
        }
        for (int i = 1; i <= a.length(); i++) {
            String corner = "";
            for (int j = 1; j <= b.length(); j++) {
                String above = row[j];
                if (a.charAt(i - 1) == b.charAt(j - 1)) {
                    row[j] = corner + a.charAt(i - 1);
                } else if (row[j - 1].length() > above.length()) {
                    row[j] = row[j - 1];
                }
                corner = above;
            }
        }
        return row[b.length()];
    }

    public static void main(String[] args) {
        String[] words = {"kitten", "sitting", "persistence", "reachability", "heap", "", "cheapest"};
        for (String a : words) {
            for (String b : words) {
                System.out.println("[" + a + "] [" + b + "] " + distance(a, b) + " [" + common(a, b) + "]");
            }
        }
    }
}
