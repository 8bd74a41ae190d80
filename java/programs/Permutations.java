// All orders of a text's letters, with repeated ones left out, and the next order of an array.
class Permutations {
    static int count;

    static void all(char[] letters, int from) {
        if (from == letters.length) {
            count++;
            for (char c : letters) {
                System.out.print(c);
            }
            System.out.print(count % 6 == 0 ? '\n' : ' ');
            return;
        }
        for (int i = from; i < letters.length; i++) {
            boolean seen = false;
            for (int j = from; j < i; j++) {
                seen |= letters[j] == letters[i];
            }
            if (seen) {
                continue;
            }
            char kept = letters[i];
            letters[i] = letters[from];
            letters[from] = kept;
            all(letters, from + 1);
            letters[from] = letters[i];
            letters[i] = kept;
        }
    }

    static boolean next(int[] a) {
        int i = a.length - 2;
        while (i >= 0 && a[i] >= a[i + 1]) {
            i--;
        }
        if (i < 0) {
            return false;
        }
        int j = a.length - 1;
        while (a[j] <= a[i]) {
            j--;
        }
        int kept = a[i];
        a[i] = a[j];
        a[j] = kept;
        for (int l = i + 1, r = a.length - 1; l < r; l++, r--) {
            kept = a[l];
            a[l] = a[r];
            a[r] = kept;
        }
        return true;
    }

    public static void main(String[] args) {
        char[] letters = {'a', 'b', 'c', 'a'};
        all(letters, 0);
        System.out.println(count);
        int[] a = {1, 2, 3, 4, 5, 6};
        int orders = 1;
        long mixed = 0;
        while (next(a)) {
            orders++;
            for (int n : a) {
                mixed = mixed * 7 + n;
            }
        }
        System.out.println(orders + " " + mixed + " " + a[0]);
    }
}
