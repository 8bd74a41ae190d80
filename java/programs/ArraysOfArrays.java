// Arrays of arrays, made one by one: ragged, shared, three deep.
class ArraysOfArrays {
    static int[][] triangle(int rows) {
        int[][] all = new int[rows][];
        for (int i = 0; i < rows; i++) {
            all[i] = new int[i + 1];
            all[i][0] = 1;
            all[i][i] = 1;
            for (int j = 1; j < i; j++) {
                all[i][j] = all[i - 1][j - 1] + all[i - 1][j];
            }
        }
        return all;
    }

    public static void main(String[] args) {
        int[][] rows = triangle(12);
        for (int[] row : rows) {
            for (int n : row) {
                System.out.print(n);
                System.out.print(' ');
            }
            System.out.println();
        }
        long[][] squares = {{1, 4}, {9}, {}, {16, 25, 36}};
        long sum = 0;
        for (int i = 0; i < squares.length; i++) {
            for (int j = 0; j < squares[i].length; j++) {
                sum = sum * 10 + squares[i][j];
            }
        }
        System.out.println(sum);
        char[][][] cube = new char[3][][];
        for (int i = 0; i < 3; i++) {
            cube[i] = new char[3][];
            for (int j = 0; j < 3; j++) {
                cube[i][j] = new char[3];
                for (int k = 0; k < 3; k++) {
                    cube[i][j][k] = (char) ('a' + i * 9 + j * 3 + k);
                }
            }
        }
        StringBuilder text = new StringBuilder();
        for (int k = 2; k >= 0; k--) {
            for (char[][] plane : cube) {
                text.append(plane[k][2 - k]);
            }
        }
        System.out.println(text.toString());
        int[] shared = {7};
        int[][] both = {shared, shared, null};
        both[0][0]++;
        System.out.println(both[1][0] + " " + (both[2] == null));
        try {
            both[2][0] = 1;
        } catch (NullPointerException e) {
            System.out.println("no third");
        }
        String[][] names = {{"a", "b"}, new String[2]};
        System.out.println(names[0][1] + names[1][1]);
    }
}
