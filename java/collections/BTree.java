import autopersist.DurableRoot;
import autopersist.Region;

/**
 * A B-tree from ints to ints that outlives its process (Cormen, Leiserson, Rivest and Stein, "Introduction to Algorithms", chapter 18:
 * one way down, on which full nodes are split before a key is put, and poor ones filled before one is removed). Each change stands
 * in a failure-atomic region: nodes are split, merged and shifted where they stand, and a stop leaves all of that or nothing.
 */
public class BTree {
    /** All nodes but the root have at least LEAST keys, and none more than MOST. */
    static final int LEAST = 2;
    static final int MOST = 2 * LEAST + 1;

    /** What stands past `count` is no part of the node. */
    static final class Node {
        final int[] keys = new int[MOST];
        final int[] values = new int[MOST];
        /** One more than keys; none in a leaf. */
        final Node[] children;
        int count;

        Node(boolean isLeaf) {
            children = isLeaf ? null : new Node[MOST + 1];
        }

        boolean isLeaf() {
            return children == null;
        }

        /** The first place whose key isn't below this one. */
        int place(int key) {
            int place = 0;
            while (place < count && keys[place] < key) {
                place++;
            }
            return place;
        }

        boolean hasAt(int place, int key) {
            return place < count && keys[place] == key;
        }

        void set(int place, Node from, int there) {
            keys[place] = from.keys[there];
            values[place] = from.values[there];
        }

        /** Makes room for a key, and for the child behind it. */
        void open(int place) {
            for (int i = count; i > place; i--) {
                set(i, this, i - 1);
                if (!isLeaf()) {
                    children[i + 1] = children[i];
                }
            }
            count++;
        }

        /** Takes a key out, and the child behind it. */
        void close(int place) {
            count--;
            for (int i = place; i < count; i++) {
                set(i, this, i + 1);
                if (!isLeaf()) {
                    children[i + 1] = children[i + 2];
                }
            }
        }

        /** Splits the full child at a place: the key in its middle comes up to this node. */
        void split(int place) {
            Node left = children[place];
            Node right = new Node(left.isLeaf());
            for (int i = 0; i < LEAST; i++) {
                right.set(i, left, LEAST + 1 + i);
            }
            for (int i = 0; i <= LEAST && !left.isLeaf(); i++) {
                right.children[i] = left.children[LEAST + 1 + i];
            }
            right.count = LEAST;
            left.count = LEAST;
            open(place);
            set(place, left, LEAST);
            children[place + 1] = right;
        }

        /** Lets the child at a place have more than LEAST keys: from a neighbour that has more, or by one that it joins. */
        void fill(int place) {
            if (place > 0 && children[place - 1].count > LEAST) {
                moveRight(place - 1);
            } else if (place < count && children[place + 1].count > LEAST) {
                moveLeft(place);
            } else {
                merge(place < count ? place : place - 1);
            }
        }

        /** The key at a place goes down to the right, and the last one on its left comes up. */
        void moveRight(int place) {
            Node left = children[place];
            Node right = children[place + 1];
            right.open(0);
            right.set(0, this, place);
            if (!right.isLeaf()) {
                right.children[1] = right.children[0];
                right.children[0] = left.children[left.count];
            }
            left.count--;
            set(place, left, left.count);
        }

        /** The key at a place goes down to the left, and the first one on its right comes up. */
        void moveLeft(int place) {
            Node left = children[place];
            Node right = children[place + 1];
            left.set(left.count, this, place);
            left.count++;
            set(place, right, 0);
            if (!right.isLeaf()) {
                left.children[left.count] = right.children[0];
                right.children[0] = right.children[1];
            }
            right.close(0);
        }

        /** The children on both sides of a key become one, with the key in its middle. */
        void merge(int place) {
            Node left = children[place];
            Node right = children[place + 1];
            left.set(left.count, this, place);
            for (int i = 0; i < right.count; i++) {
                left.set(left.count + 1 + i, right, i);
            }
            for (int i = 0; i <= right.count && !left.isLeaf(); i++) {
                left.children[left.count + 1 + i] = right.children[i];
            }
            left.count += 1 + right.count;
            close(place);
        }

        Node last() {
            Node node = this;
            while (!node.isLeaf()) {
                node = node.children[node.count];
            }
            return node;
        }

        Node first() {
            Node node = this;
            while (!node.isLeaf()) {
                node = node.children[0];
            }
            return node;
        }
    }

    Node root = new Node(true);
    int size;
    /** How many changes `main` has made. */
    int changes;

    boolean has(int key) {
        Node node = root;
        while (true) {
            int place = node.place(key);
            if (node.hasAt(place, key) || node.isLeaf()) {
                return node.hasAt(place, key);
            }
            node = node.children[place];
        }
    }

    /** The value of a key, or what stands for none. */
    int get(int key, int none) {
        Node node = root;
        while (true) {
            int place = node.place(key);
            if (node.hasAt(place, key)) {
                return node.values[place];
            }
            if (node.isLeaf()) {
                return none;
            }
            node = node.children[place];
        }
    }

    void put(int key, int value) {
        Region.begin();
        if (root.count == MOST) {
            Node top = new Node(false);
            top.children[0] = root;
            top.split(0);
            root = top;
        }
        Node node = root;
        int place = node.place(key);
        while (!node.hasAt(place, key) && !node.isLeaf()) {
            if (node.children[place].count == MOST) {
                node.split(place);
            } else {
                node = node.children[place];
            }
            place = node.place(key);
        }
        if (!node.hasAt(place, key)) {
            node.open(place);
            node.keys[place] = key;
            size++;
        }
        node.values[place] = value;
        Region.end();
    }

    /** Whether the key was there. */
    boolean remove(int key) {
        if (!has(key)) {
            return false;
        }
        Region.begin();
        Node node = root;
        int place = node.place(key);
        while (!node.isLeaf()) {
            if (!node.hasAt(place, key)) {
                if (node.children[place].count == LEAST) {
                    node.fill(place);
                } else {
                    node = node.children[place];
                }
            } else if (node.children[place].count > LEAST) {
                Node leaf = node.children[place].last();
                node.set(place, leaf, leaf.count - 1);
                key = node.keys[place];
                node = node.children[place];
            } else if (node.children[place + 1].count > LEAST) {
                node.set(place, node.children[place + 1].first(), 0);
                key = node.keys[place];
                node = node.children[place + 1];
            } else {
                node.merge(place);
                node = node.children[place];
            }
            place = node.place(key);
        }
        node.close(place);
        if (root.count == 0 && !root.isLeaf()) {
            root = root.children[0];
        }
        size--;
        Region.end();
        return true;
    }

    /** How many levels there are below a node, or -1 where its keys aren't in order, their number isn't allowed or leaves differ. */
    int levels(Node node, long above, long below) {
        if (node.count > MOST || node != root && node.count < LEAST) {
            return -1;
        }
        int levels = 0;
        for (int i = 0; i <= node.count; i++) {
            long left = i == 0 ? above : node.keys[i - 1];
            long right = i == node.count ? below : node.keys[i];
            if (left >= right) {
                return -1;
            }
            int under = node.isLeaf() ? 0 : levels(node.children[i], left, right) + 1;
            if (!node.isLeaf() && (under == 0 || i > 0 && under != levels)) {
                return -1;
            }
            levels = under;
        }
        return levels;
    }

    int count(Node node) {
        int count = node.count;
        for (int i = 0; i <= node.count && !node.isLeaf(); i++) {
            count += count(node.children[i]);
        }
        return count;
    }

    boolean isWhole() {
        return levels(root, Long.MIN_VALUE, Long.MAX_VALUE) >= 0 && count(root) == size;
    }

    void show(Node node) {
        for (int i = 0; i <= node.count; i++) {
            if (!node.isLeaf()) {
                show(node.children[i]);
            }
            if (i < node.count) {
                System.out.print(' ');
                System.out.print(node.keys[i]);
                System.out.print('=');
                System.out.print(get(node.keys[i], -1));
            }
        }
    }

    void show() {
        System.out.print("holds");
        show(root);
        System.out.println();
    }

    @DurableRoot static BTree tree;

    /** Change number n. It and its count are one region. */
    static void change(int n) {
        String what;
        Region.begin();
        if (n % 4 == 0) {
            int key = n / 2 * 167 % 1009;
            what = (tree.remove(key) ? "removed " : "lacks ") + key;
        } else {
            int key = n * 167 % 1009;
            tree.put(key, n);
            what = "put " + key;
        }
        tree.changes = n;
        Region.end();
        System.out.println("change " + n + " " + what);
    }

    public static void main(String[] args) {
        if (tree == null) {
            tree = new BTree();
        }
        System.out.println("begins after " + tree.changes + (tree.isWhole() ? " whole" : " broken"));
        tree.show();
        for (int i = 0; i < 60; i++) {
            change(tree.changes + 1);
        }
        System.out.println("ends after " + tree.changes + (tree.isWhole() ? " whole" : " broken"));
        tree.show();
    }
}
