// A search tree: added to, walked in order, its least taken out, its height.
class BinaryTree {
    static final class Node {
        final int key;
        int count = 1;
        Node left;
        Node right;

        Node(int key) {
            this.key = key;
        }
    }

    static Node add(Node tree, int key) {
        if (tree == null) {
            return new Node(key);
        }
        if (key < tree.key) {
            tree.left = add(tree.left, key);
        } else if (key > tree.key) {
            tree.right = add(tree.right, key);
        } else {
            tree.count++;
        }
        return tree;
    }

    static Node withoutLeast(Node tree) {
        if (tree.left == null) {
            return tree.right;
        }
        tree.left = withoutLeast(tree.left);
        return tree;
    }

    static int height(Node tree) {
        if (tree == null) {
            return 0;
        }
        int left = height(tree.left);
        int right = height(tree.right);
        return 1 + (left > right ? left : right);
    }

    static void walk(Node tree, StringBuilder out) {
        if (tree != null) {
            walk(tree.left, out);
            out.append(tree.key);
            if (tree.count > 1) {
                out.append('x').append(tree.count);
            }
            out.append(' ');
            walk(tree.right, out);
        }
    }

    public static void main(String[] args) {
        Node tree = null;
        int n = 1;
        for (int i = 0; i < 60; i++) {
            n = n * 37 % 101;
            tree = add(tree, n / 2);
        }
        while (tree != null) {
            StringBuilder out = new StringBuilder();
            walk(tree, out);
            System.out.println(height(tree) + ": " + out.toString());
            for (int i = 0; i < 15 && tree != null; i++) {
                tree = withoutLeast(tree);
            }
        }
    }
}
