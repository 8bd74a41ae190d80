// A queue by urgency in a heap, a ring of bounded size, and the rounds of a children's game.
class PriorityQueue {
    static class Task {
        final int urgency;
        final String name;

        Task(int urgency, String name) {
            this.urgency = urgency;
            this.name = name;
        }
    }

    private final Task[] heap = new Task[32];
    private int size;

    void add(Task task) {
        int at = ++size;
        while (at > 1 && heap[at / 2].urgency < task.urgency) {
            heap[at] = heap[at / 2];
            at /= 2;
        }
        heap[at] = task;
    }

    Task take() {
        Task top = heap[1];
        Task last = heap[size--];
        int at = 1;
        while (2 * at <= size) {
            int child = 2 * at;
            if (child < size && heap[child + 1].urgency > heap[child].urgency) {
                child++;
            }
            if (heap[child].urgency <= last.urgency) {
                break;
            }
            heap[at] = heap[child];
            at = child;
        }
        heap[at] = last;
        return top;
    }

    static class Ring {
        private final int[] items;
        private int head;
        private int size;

        Ring(int most) {
            items = new int[most];
        }

        boolean put(int n) {
            if (size == items.length) {
                return false;
            }
            items[(head + size++) % items.length] = n;
            return true;
        }

        int take() {
            int n = items[head];
            head = (head + 1) % items.length;
            size--;
            return n;
        }
    }

    public static void main(String[] args) {
        PriorityQueue queue = new PriorityQueue();
        for (int i = 0; i < 20; i++) {
            queue.add(new Task(i * 7 % 20, "task" + i));
        }
        while (queue.size > 0) {
            Task task = queue.take();
            System.out.print(task.urgency + ":" + task.name + (queue.size % 5 == 0 ? "\n" : " "));
        }
        Ring ring = new Ring(5);
        for (int i = 0; i < 12; i++) {
            if (!ring.put(i)) {
                System.out.print("full, took " + ring.take() + "; ");
            }
        }
        System.out.println(ring.size);
        Ring children = new Ring(41);
        for (int i = 1; i <= 41; i++) {
            children.put(i);
        }
        while (children.size > 1) {
            children.put(children.take());
            children.put(children.take());
            children.take();
        }
        System.out.println(children.take());
    }
}
