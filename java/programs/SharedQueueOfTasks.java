// Workers that take tasks from one list until none is left: what each finds differs from run to run, what they find together doesn't.
class SharedQueueOfTasks {
    static class Task {
        final int number;
        final Task next;

        Task(int number, Task next) {
            this.number = number;
            this.next = next;
        }
    }

    static Task tasks;
    static final Object LOCK = new Object();
    static int[] results = new int[60];
    static int finished;

    static Task take() {
        synchronized (LOCK) {
            Task task = tasks;
            if (task != null) {
                tasks = task.next;
            }
            return task;
        }
    }

    // the steps of Collatz down to 1
    static int steps(int n) {
        int steps = 0;
        for (long at = n; at != 1; at = at % 2 == 0 ? at / 2 : 3 * at + 1) {
            steps++;
        }
        return steps;
    }

    static class Worker extends Thread {
        public void run() {
            for (Task task = take(); task != null; task = take()) {
                int steps = steps(task.number);
                synchronized (LOCK) {
                    results[task.number] = steps;
                    finished++;
                }
            }
        }
    }

    public static void main(String[] args) throws InterruptedException {
        for (int n = 1; n < results.length; n++) {
            tasks = new Task(n, tasks);
        }
        Worker[] workers = new Worker[6];
        for (int w = 0; w < workers.length; w++) {
            workers[w] = new Worker();
            workers[w].start();
        }
        for (Worker worker : workers) {
            worker.join();
        }
        int longest = 1;
        for (int n = 1; n < results.length; n++) {
            if (results[n] > results[longest]) {
                longest = n;
            }
        }
        System.out.println(finished + " done, " + longest + " takes " + results[longest]);
    }
}
