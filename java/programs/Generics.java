// Type parameters, which the compiler turns into casts and bridging methods.
class Generics {
    interface Order<T> {
        int compare(T a, T b);
    }

    static final class Number implements Order<Number> {
        final int n;

        Number(int n) {
            this.n = n;
        }

        public int compare(Number a, Number b) {
            return a.n - b.n;
        }

        public String toString() {
            return "#" + n;
        }
    }

    static final class ByLength implements Order<String> {
        public int compare(String a, String b) {
            return a.length() - b.length();
        }
    }

    static final class Stack<T> {
        private Object[] items = new Object[1];
        private int size;

        void push(T item) {
            if (size == items.length) {
                Object[] more = new Object[size * 2];
                for (int i = 0; i < size; i++) {
                    more[i] = items[i];
                }
                items = more;
            }
            items[size++] = item;
        }

        @SuppressWarnings("unchecked")
        T pop() {
            return (T) items[--size];
        }

        boolean isEmpty() {
            return size == 0;
        }
    }

    static <T> T most(T[] all, Order<T> order) {
        T best = all[0];
        for (T each : all) {
            if (order.compare(each, best) > 0) {
                best = each;
            }
        }
        return best;
    }

    @SuppressWarnings("unchecked")
    public static void main(String[] args) {
        Number[] numbers = {new Number(3), new Number(9), new Number(4)};
        System.out.println(most(numbers, numbers[0]));
        String[] words = {"one", "three", "four"};
        System.out.println(most(words, new ByLength()));
        Stack<String> stack = new Stack<String>();
        for (String word : words) {
            stack.push(word);
        }
        while (!stack.isEmpty()) {
            System.out.print(stack.pop().length() + " ");
        }
        System.out.println();
        Order raw = new ByLength();
        try {
            System.out.println(raw.compare("text", numbers[0]));
        } catch (ClassCastException e) {
            System.out.println("not a String");
        }
        Stack<Number> mixed = new Stack<Number>();
        ((Stack) mixed).push("text");
        try {
            Number n = mixed.pop();
            System.out.println(n.n);
        } catch (ClassCastException e) {
            System.out.println("not a Number");
        }
    }
}
