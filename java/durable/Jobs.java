import autopersist.DurableRoot;

/**
 * A queue of jobs that outlives its process (Michael and Scott, "Simple, fast, and practical non-blocking and blocking concurrent queue
 * algorithms", PODC 1996). A job is in the queue once the node before it refers to it; where a stop came before the tail followed,
 * the next run moves the tail on. A job is done once the head has passed it, so one whose work was cut off is done again.
 */
public class Jobs {
    static final class Node {
        final int job;
        Node next;

        Node(int job) {
            this.job = job;
        }
    }

    static final class Queue {
        /** The last job that is done; those behind it wait. */
        Node head;
        /** The last job, or one before it. */
        Node tail;
        int added;

        Queue() {
            head = new Node(0);
            tail = head;
        }

        void mend() {
            while (tail.next != null) {
                tail = tail.next;
            }
            added = tail.job;
        }

        void add(int job) {
            tail.next = new Node(job);
            tail = tail.next;
            added = job;
        }

        Node first() {
            return head.next;
        }

        void remove() {
            head = head.next;
        }

        int waiting() {
            int count = 0;
            for (Node node = head.next; node != null; node = node.next) {
                count++;
            }
            return count;
        }
    }

    @DurableRoot static Queue queue;

    static int work(int job) {
        int left = job;
        int steps = 0;
        while (left > 1) {
            left = left % 2 == 0 ? left / 2 : 3 * left + 1;
            steps++;
        }
        return steps;
    }

    public static void main(String[] args) {
        if (queue == null) {
            queue = new Queue();
        }
        queue.mend();
        System.out.println("begins with " + queue.waiting() + " jobs after " + queue.head.job);
        for (int i = 0; i < 12; i++) {
            queue.add(queue.added + 1);
            System.out.println("added job " + queue.added);
        }
        for (int i = 0; i < 8; i++) {
            Node node = queue.first();
            int steps = work(node.job);
            queue.remove();
            System.out.println("did job " + node.job + " in " + steps + " steps");
        }
        System.out.println("ends with " + queue.waiting() + " jobs after " + queue.head.job);
    }
}
