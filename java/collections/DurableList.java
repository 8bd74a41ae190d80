import autopersist.DurableRoot;
import autopersist.Region;

/**
 * A doubly linked list of ints that outlives its process. Each change stands in a failure-atomic region: no stop leaves a node that
 * one neighbour knows and the other doesn't, or a size that isn't that of the list.
 */
public class DurableList {
    static final class Node {
        final int value;
        Node before;
        Node after;

        Node(int value, Node before, Node after) {
            this.value = value;
            this.before = before;
            this.after = after;
        }
    }

    Node first;
    Node last;
    int size;
    /** How many changes `main` has made. */
    int changes;

    /** The node at a place, by the way from the nearer end. */
    Node at(int place) {
        if (place < 0 || place >= size) {
            throw new IndexOutOfBoundsException("place " + place);
        }
        Node node;
        if (place < size / 2) {
            node = first;
            for (int i = 0; i < place; i++) {
                node = node.after;
            }
        } else {
            node = last;
            for (int i = size - 1; i > place; i--) {
                node = node.before;
            }
        }
        return node;
    }

    void add(int value) {
        insertBefore(null, value);
    }

    void insert(int place, int value) {
        insertBefore(place == size ? null : at(place), value);
    }

    /** Puts a value in front of a node, or at the end where there is none. */
    void insertBefore(Node after, int value) {
        Region.begin();
        Node before = after == null ? last : after.before;
        Node node = new Node(value, before, after);
        if (before == null) {
            first = node;
        } else {
            before.after = node;
        }
        if (after == null) {
            last = node;
        } else {
            after.before = node;
        }
        size++;
        Region.end();
    }

    int remove(int place) {
        Node node = at(place);
        Region.begin();
        if (node.before == null) {
            first = node.after;
        } else {
            node.before.after = node.after;
        }
        if (node.after == null) {
            last = node.before;
        } else {
            node.after.before = node.before;
        }
        size--;
        Region.end();
        return node.value;
    }

    /** Whether both directions agree, and the size with them. */
    boolean isWhole() {
        int count = 0;
        Node before = null;
        for (Node node = first; node != null; node = node.after) {
            if (node.before != before) {
                return false;
            }
            before = node;
            count++;
        }
        return last == before && size == count;
    }

    void show() {
        System.out.print("holds");
        for (Node node = first; node != null; node = node.after) {
            System.out.print(' ');
            System.out.print(node.value);
        }
        System.out.println();
    }

    @DurableRoot static DurableList list;

    /** Change number n. It and its count are one region. */
    static void change(int n) {
        String what;
        Region.begin();
        if (n % 4 == 0) {
            what = "removed " + list.remove(5 * n % list.size);
        } else if (n % 4 == 3) {
            list.insert(7 * n % (list.size + 1), n);
            what = "inserted " + n;
        } else {
            list.add(n);
            what = "added " + n;
        }
        list.changes = n;
        Region.end();
        System.out.println("change " + n + " " + what);
    }

    public static void main(String[] args) {
        if (list == null) {
            list = new DurableList();
        }
        System.out.println("begins after " + list.changes + (list.isWhole() ? " whole" : " broken"));
        list.show();
        for (int i = 0; i < 60; i++) {
            change(list.changes + 1);
        }
        System.out.println("ends after " + list.changes + (list.isWhole() ? " whole" : " broken"));
        list.show();
    }
}
