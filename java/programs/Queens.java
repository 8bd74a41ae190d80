// The queens on boards of four to seven: how many ways, and the first of each.
class Queens {
    private final int[] column;
    private int ways;
    private String first = "none";

    Queens(int size) {
        column = new int[size];
    }

    private boolean isFree(int row, int at) {
        for (int i = 0; i < row; i++) {
            int distance = column[i] - at;
            if (distance == 0 || distance == row - i || distance == i - row) {
                return false;
            }
        }
        return true;
    }

    int place(int row) {
        if (row == column.length) {
            if (ways++ == 0) {
                first = "";
                for (int at : column) {
                    first += (char) ('1' + at);
                }
            }
            return ways;
        }
        for (int at = 0; at < column.length; at++) {
            if (isFree(row, at)) {
                column[row] = at;
                place(row + 1);
            }
        }
        return ways;
    }

    static int byBits(int all, int columns, int left, int right) {
        if (columns == all) {
            return 1;
        }
        int count = 0;
        for (int free = all & ~(columns | left | right); free != 0; free &= free - 1) {
            int bit = free & -free;
            count += byBits(all, columns | bit, (left | bit) << 1, (right | bit) >> 1);
        }
        return count;
    }

    public static void main(String[] args) {
        for (int size = 3; size < 8; size++) {
            Queens board = new Queens(size);
            System.out.println(size + ": " + board.place(0) + " " + board.first + " " + byBits((1 << size) - 1, 0, 0, 0));
        }
    }
}
