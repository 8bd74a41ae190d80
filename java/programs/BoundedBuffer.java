// Two producers and two consumers over a buffer of four: without wait and notify, who finds it full or empty looks again.
class BoundedBuffer {
    static class Buffer {
        final int[] items = new int[4];
        int first;
        int size;

        synchronized boolean offer(int item) {
            if (size == items.length) {
                return false;
            }
            items[(first + size) % items.length] = item;
            size++;
            return true;
        }

        // 0 where there is none
        synchronized int poll() {
            if (size == 0) {
                return 0;
            }
            int item = items[first];
            first = (first + 1) % items.length;
            size--;
            return item;
        }
    }

    static class Producer extends Thread {
        final Buffer buffer;
        final int from;
        final int count;

        Producer(Buffer buffer, int from, int count) {
            this.buffer = buffer;
            this.from = from;
            this.count = count;
        }

        public void run() {
            for (int i = 0; i < count; i++) {
                while (!buffer.offer(from + i)) {
                }
            }
        }
    }

    static class Consumer extends Thread {
        final Buffer buffer;
        final int count;
        final boolean[] seen = new boolean[200];
        int sum;
        boolean inOrder = true;

        Consumer(Buffer buffer, int count) {
            this.buffer = buffer;
            this.count = count;
        }

        public void run() {
            int lastLow = 0;
            int lastHigh = 0;
            for (int i = 0; i < count; i++) {
                int item = buffer.poll();
                while (item == 0) {
                    item = buffer.poll();
                }
                sum += item;
                seen[item] = true;
                // those of one producer come in their order
                if (item < 100) {
                    inOrder &= item > lastLow;
                    lastLow = item;
                } else {
                    inOrder &= item > lastHigh;
                    lastHigh = item;
                }
            }
        }
    }

    public static void main(String[] args) throws InterruptedException {
        Buffer buffer = new Buffer();
        Producer low = new Producer(buffer, 1, 40);
        Producer high = new Producer(buffer, 101, 40);
        Consumer one = new Consumer(buffer, 50);
        Consumer other = new Consumer(buffer, 30);
        one.start();
        low.start();
        high.start();
        other.start();
        low.join();
        high.join();
        one.join();
        other.join();
        int once = 0;
        for (int i = 0; i < 200; i++) {
            once += one.seen[i] != other.seen[i] ? 1 : 0;
        }
        System.out.println("sum " + (one.sum + other.sum));
        System.out.println("seen once " + once);
        System.out.println("in order " + (one.inOrder && other.inOrder));
        System.out.println("left " + buffer.size);
    }
}
