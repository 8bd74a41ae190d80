import autopersist.DurableRoot;
import autopersist.Region;

/**
 * A ring buffer of ints that outlives its process: first in, first out, in one array that never grows, so that it takes no lines of
 * the image once it is made. Each change stands in a failure-atomic region.
 */
public class RingBuffer {
    final int[] values;
    int first;
    int count;
    /** How many changes `main` has made. */
    int changes;

    RingBuffer(int capacity) {
        values = new int[capacity];
    }

    boolean isEmpty() {
        return count == 0;
    }

    boolean isFull() {
        return count == values.length;
    }

    /** Whether there was room for it. */
    boolean put(int value) {
        if (isFull()) {
            return false;
        }
        Region.begin();
        values[(first + count) % values.length] = value;
        count++;
        Region.end();
        return true;
    }

    int take() {
        if (isEmpty()) {
            throw new IllegalStateException("the ring buffer is empty");
        }
        int value = values[first];
        Region.begin();
        first = (first + 1) % values.length;
        count--;
        Region.end();
        return value;
    }

    /** Whether the places are within the array, and the values, which are those of `main`, in order. */
    boolean isWhole() {
        if (first < 0 || first >= values.length || count < 0 || count > values.length) {
            return false;
        }
        for (int i = 1; i < count; i++) {
            if (values[(first + i - 1) % values.length] >= values[(first + i) % values.length]) {
                return false;
            }
        }
        return true;
    }

    void show() {
        System.out.print("holds");
        for (int i = 0; i < count; i++) {
            System.out.print(' ');
            System.out.print(values[(first + i) % values.length]);
        }
        System.out.println();
    }

    @DurableRoot static RingBuffer ring;

    /** Change number n. It and its count are one region. */
    static void change(int n) {
        String what;
        Region.begin();
        if (n % 40 < 26) {
            what = (ring.put(n) ? "put " : "no room for ") + n;
        } else {
            what = "took " + ring.take();
        }
        ring.changes = n;
        Region.end();
        System.out.println("change " + n + " " + what);
    }

    public static void main(String[] args) {
        if (ring == null) {
            ring = new RingBuffer(32);
        }
        System.out.println("begins after " + ring.changes + (ring.isWhole() ? " whole" : " broken"));
        ring.show();
        for (int i = 0; i < 60; i++) {
            change(ring.changes + 1);
        }
        System.out.println("ends after " + ring.changes + (ring.isWhole() ? " whole" : " broken"));
        ring.show();
    }
}
