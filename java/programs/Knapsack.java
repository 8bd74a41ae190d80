// What of a list of things goes into a bag: by a table, by trying all, and which things they are.
class Knapsack {
    static final int[] WEIGHT = {12, 2, 1, 4, 1, 7, 9, 3, 5, 6, 8, 2};
    static final int[] WORTH = {4, 2, 1, 10, 2, 9, 13, 4, 7, 8, 9, 3};

    static int byTrying(int bag) {
        int best = 0;
        for (int set = 0; set < 1 << WEIGHT.length; set++) {
            int weight = 0;
            int worth = 0;
            for (int rest = set, i = 0; rest != 0 && weight <= bag; rest >>>= 1, i++) {
                if ((rest & 1) != 0) {
                    weight += WEIGHT[i];
                    worth += WORTH[i];
                }
            }
            if (weight <= bag && worth > best) {
                best = worth;
            }
        }
        return best;
    }

    static int[][] table(int bag) {
        int[][] best = new int[WEIGHT.length + 1][];
        best[0] = new int[bag + 1];
        for (int i = 1; i <= WEIGHT.length; i++) {
            best[i] = new int[bag + 1];
            for (int room = 0; room <= bag; room++) {
                best[i][room] = best[i - 1][room];
                if (room >= WEIGHT[i - 1]) {
                    int with = best[i - 1][room - WEIGHT[i - 1]] + WORTH[i - 1];
                    if (with > best[i][room]) {
                        best[i][room] = with;
                    }
                }
            }
        }
        return best;
    }

    static String things(int[][] best, int room) {
        String text = "";
        for (int i = WEIGHT.length; i > 0; i--) {
            if (best[i][room] != best[i - 1][room]) {
                text = (i - 1) + " " + text;
                room -= WEIGHT[i - 1];
            }
        }
        return text;
    }

    public static void main(String[] args) {
        int[][] best = table(30);
        for (int bag = 0; bag <= 30; bag += 5) {
            System.out.println(bag + ": " + best[WEIGHT.length][bag] + " by " + things(best, bag));
        }
        System.out.println(byTrying(15) == best[WEIGHT.length][15]);
    }
}
