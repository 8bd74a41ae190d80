// break and continue with labels, out of loops, blocks and switches.
class LabelsAndBreaks {
    static int product(int[][] table, int stop) {
        int product = 1;
        rows:
        for (int i = 0; i < table.length; i++) {
            for (int n : table[i]) {
                if (n == 0) {
                    continue rows;
                }
                if (n == stop) {
                    break rows;
                }
                product *= n;
            }
            product++;
        }
        return product;
    }

    public static void main(String[] args) {
        int[][] table = {{1, 2, 3}, {4, 0, 5}, {6, 7}, {8, 9}};
        System.out.println(product(table, 7));
        System.out.println(product(table, 100));
        outer:
        for (int a = 1; ; a++) {
            for (int b = a; b < 100; b++) {
                for (int c = b; c < 100; c++) {
                    if (a * a + b * b == c * c && a + b + c > 100) {
                        System.out.println(a + " " + b + " " + c);
                        break outer;
                    }
                }
            }
        }
        block: {
            System.out.println("in the block");
            if (args.length == 0) {
                break block;
            }
            System.out.println("never");
        }
        int n = 0;
        do {
            n += 3;
            if (n % 2 == 0) {
                continue;
            }
            if (n > 20) {
                break;
            }
            System.out.print(n + " ");
        } while (n < 40);
        System.out.println();
        int steps = 0;
        machine:
        while (true) {
            switch (steps++ % 4) {
                case 0: continue machine;
                case 1: break;
                case 2: if (steps > 10) break machine;
                default: System.out.print("d");
            }
            System.out.print(steps);
        }
        System.out.println();
    }
}
