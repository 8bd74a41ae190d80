// A glider and a blinker on a board whose edges meet.
class GameOfLife {
    private boolean[][] cells;

    GameOfLife(int size) {
        cells = empty(size);
    }

    static boolean[][] empty(int size) {
        boolean[][] board = new boolean[size][];
        for (int i = 0; i < size; i++) {
            board[i] = new boolean[size];
        }
        return board;
    }

    void set(int row, String line) {
        for (int i = 0; i < line.length(); i++) {
            cells[row][i] = line.charAt(i) == '#';
        }
    }

    int neighbours(int row, int column) {
        int size = cells.length;
        int count = 0;
        for (int i = size - 1; i <= size + 1; i++) {
            for (int j = size - 1; j <= size + 1; j++) {
                if ((i != size || j != size) && cells[(row + i) % size][(column + j) % size]) {
                    count++;
                }
            }
        }
        return count;
    }

    void step() {
        boolean[][] next = empty(cells.length);
        for (int i = 0; i < cells.length; i++) {
            for (int j = 0; j < cells.length; j++) {
                int n = neighbours(i, j);
                next[i][j] = n == 3 || n == 2 && cells[i][j];
            }
        }
        cells = next;
    }

    void show() {
        for (boolean[] row : cells) {
            for (boolean cell : row) {
                System.out.print(cell ? '#' : '.');
            }
            System.out.println();
        }
        System.out.println();
    }

    public static void main(String[] args) {
        GameOfLife life = new GameOfLife(9);
        life.set(0, " #");
        life.set(1, "  #");
        life.set(2, "###");
        life.set(6, "     ###");
        life.show();
        for (int i = 0; i < 12; i++) {
            life.step();
            if (i % 4 == 3) {
                life.show();
            }
        }
    }
}
