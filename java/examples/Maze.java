/** A maze that is drawn from a number, and the shortest way through it. */
class Maze {
    private final int rows;
    private final int columns;
    private final char[][] cells;
    private long seed;

    Maze(int rows, int columns, long seed) {
        this.rows = 2 * rows + 1;
        this.columns = 2 * columns + 1;
        this.seed = seed;
        cells = new char[this.rows][];
        for (int i = 0; i < this.rows; i++) {
            cells[i] = new char[this.columns];
            for (int j = 0; j < this.columns; j++) {
                cells[i][j] = '#';
            }
        }
        dig(1, 1);
    }

    private int random(int below) {
        seed = seed * 6364136223846793005L + 1442695040888963407L;
        return (int) ((seed >>> 33) % below);
    }

    private boolean isInside(int i, int j) {
        return i > 0 && i < rows - 1 && j > 0 && j < columns - 1;
    }

    private void dig(int i, int j) {
        cells[i][j] = ' ';
        int[] order = {0, 1, 2, 3};
        for (int n = 4; n > 1; n--) {
            int at = random(n);
            int kept = order[at];
            order[at] = order[n - 1];
            order[n - 1] = kept;
        }
        for (int way : order) {
            int di = way == 0 ? -1 : way == 1 ? 1 : 0;
            int dj = way == 2 ? -1 : way == 3 ? 1 : 0;
            if (isInside(i + 2 * di, j + 2 * dj) && cells[i + 2 * di][j + 2 * dj] == '#') {
                cells[i + di][j + dj] = ' ';
                dig(i + 2 * di, j + 2 * dj);
            }
        }
    }

    /** Marks the shortest way between two corners; its length, or -1 where there is none. */
    int solve() {
        int[] from = new int[rows * columns];
        int[] queue = new int[rows * columns];
        int head = 0;
        int tail = 0;
        int start = columns + 1;
        int goal = rows * columns - columns - 2;
        int[] steps = {-columns, columns, -1, 1};
        queue[tail++] = goal;
        from[goal] = goal;
        while (head < tail && from[start] == 0) {
            int at = queue[head++];
            for (int step : steps) {
                int next = at + step;
                if (from[next] == 0 && cells[next / columns][next % columns] == ' ') {
                    from[next] = at;
                    queue[tail++] = next;
                }
            }
        }
        if (from[start] == 0) {
            return -1;
        }
        int length = 0;
        for (int at = start; at != goal; at = from[at]) {
            cells[at / columns][at % columns] = '.';
            length++;
        }
        cells[goal / columns][goal % columns] = '.';
        return length;
    }

    void show() {
        for (char[] row : cells) {
            StringBuilder line = new StringBuilder();
            for (char cell : row) {
                line.append(cell);
            }
            System.out.println(line.toString());
        }
    }

    public static void main(String[] args) {
        Maze maze = new Maze(8, 20, 2019);
        int length = maze.solve();
        maze.show();
        System.out.println("the way takes " + length + " steps");
    }
}
