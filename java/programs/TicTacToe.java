// A game that is played to its end by looking at all that may come.
class TicTacToe {
    private final char[] board = new char[9];
    private int looked;

    TicTacToe() {
        for (int i = 0; i < 9; i++) {
            board[i] = '.';
        }
    }

    private boolean wins(char who) {
        for (int i = 0; i < 3; i++) {
            if (board[3 * i] == who && board[3 * i + 1] == who && board[3 * i + 2] == who) return true;
            if (board[i] == who && board[i + 3] == who && board[i + 6] == who) return true;
        }
        return board[4] == who && (board[0] == who && board[8] == who || board[2] == who && board[6] == who);
    }

    // 1 where the one who moves wins, -1 where the other does
    private int worth(char who, char other, int left) {
        looked++;
        if (wins(other)) return -1;
        if (left == 0) return 0;
        int best = -1;
        for (int i = 0; i < 9 && best < 1; i++) {
            if (board[i] == '.') {
                board[i] = who;
                int w = -worth(other, who, left - 1);
                board[i] = '.';
                if (w > best) best = w;
            }
        }
        return best;
    }

    private int choose(char who, char other, int left) {
        int at = -1;
        int best = -2;
        for (int i = 0; i < 9; i++) {
            if (board[i] == '.') {
                board[i] = who;
                int w = -worth(other, who, left - 1);
                board[i] = '.';
                if (w > best) {
                    best = w;
                    at = i;
                }
            }
        }
        return at;
    }

    void play(int first, int second, int third) {
        board[first] = 'X';
        board[second] = 'O';
        board[third] = 'X';
        char who = 'O';
        for (int left = 6; left > 0 && !wins('X') && !wins('O'); left--) {
            board[choose(who, who == 'X' ? 'O' : 'X', left)] = who;
            who = who == 'X' ? 'O' : 'X';
        }
        for (int i = 0; i < 9; i++) {
            System.out.print(board[i]);
            if (i % 3 == 2) System.out.println();
        }
        System.out.println((wins('X') ? "X wins" : wins('O') ? "O wins" : "a draw") + " after " + looked);
    }

    public static void main(String[] args) {
        new TicTacToe().play(4, 0, 8);
        new TicTacToe().play(0, 1, 4);
        new TicTacToe().play(4, 1, 0);
    }
}
