// Each thread starts the next one, joins it, and adds to what that found.
class ChainOfThreads {
    static class Link extends Thread {
        final int depth;
        String path = "";
        int below;

        Link(int depth) {
            this.depth = depth;
        }

        public void run() {
            if (depth == 0) {
                path = ".";
                return;
            }
            Link next = new Link(depth - 1);
            next.start();
            try {
                next.join();
            } catch (InterruptedException e) {
                path = "interrupted";
                return;
            }
            below = next.below + 1;
            path = depth + next.path;
        }
    }

    public static void main(String[] args) throws InterruptedException {
        Link first = new Link(9);
        first.start();
        first.join();
        System.out.println(first.path + " " + first.below);
        // a tree of threads: each node starts two
        Tree root = new Tree(3);
        root.run();
        System.out.println(root.leaves + " leaves");
    }

    static class Tree implements Runnable {
        final int height;
        int leaves;

        Tree(int height) {
            this.height = height;
        }

        public void run() {
            if (height == 0) {
                leaves = 1;
                return;
            }
            Tree left = new Tree(height - 1);
            Tree right = new Tree(height - 1);
            Thread leftThread = new Thread(left);
            Thread rightThread = new Thread(right);
            leftThread.start();
            rightThread.start();
            try {
                leftThread.join();
                rightThread.join();
            } catch (InterruptedException e) {
                return;
            }
            leaves = left.leaves + right.leaves;
        }
    }
}
