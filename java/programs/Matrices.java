// Matrices of longs: products, powers, transposes and determinants.
class Matrices {
    static long[][] zero(int rows, int columns) {
        long[][] m = new long[rows][];
        for (int i = 0; i < rows; i++) {
            m[i] = new long[columns];
        }
        return m;
    }

    static long[][] product(long[][] a, long[][] b) {
        long[][] m = zero(a.length, b[0].length);
        for (int i = 0; i < a.length; i++) {
            for (int j = 0; j < b[0].length; j++) {
                for (int k = 0; k < b.length; k++) {
                    m[i][j] += a[i][k] * b[k][j];
                }
            }
        }
        return m;
    }

    static long[][] transposed(long[][] a) {
        long[][] m = zero(a[0].length, a.length);
        for (int i = 0; i < a.length; i++) {
            for (int j = 0; j < a[i].length; j++) {
                m[j][i] = a[i][j];
            }
        }
        return m;
    }

    static long determinant(long[][] a) {
        if (a.length == 1) {
            return a[0][0];
        }
        long sum = 0;
        for (int column = 0; column < a.length; column++) {
            long[][] minor = zero(a.length - 1, a.length - 1);
            for (int i = 1; i < a.length; i++) {
                for (int j = 0, k = 0; j < a.length; j++) {
                    if (j != column) {
                        minor[i - 1][k++] = a[i][j];
                    }
                }
            }
            sum += (column % 2 == 0 ? 1 : -1) * a[0][column] * determinant(minor);
        }
        return sum;
    }

    static void show(long[][] a) {
        for (long[] row : a) {
            String line = "";
            for (long n : row) {
                line += n + " ";
            }
            System.out.println(line);
        }
    }

    public static void main(String[] args) {
        long[][] a = {{1, 2, 3}, {4, 5, 6}};
        show(product(a, transposed(a)));
        show(product(transposed(a), a));
        long[][] fib = {{1, 1}, {1, 0}};
        long[][] power = {{1, 0}, {0, 1}};
        for (int bits = 90; bits > 0; bits >>= 1) {
            if ((bits & 1) != 0) {
                power = product(power, fib);
            }
            fib = product(fib, fib);
        }
        show(power);
        long[][] big = zero(5, 5);
        for (int i = 0; i < 5; i++) {
            for (int j = 0; j < 5; j++) {
                big[i][j] = (i * 7 + j * j * 3) % 11 - 5;
            }
        }
        System.out.println(determinant(big));
    }
}
