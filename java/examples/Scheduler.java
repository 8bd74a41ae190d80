/** A simulated machine: jobs with priorities take turns, wait for one another's results, fail and are tried again. */
class Scheduler {
    static final int READY = 0;
    static final int WAITING = 1;
    static final int DONE = 2;
    static final int FAILED = 3;

    abstract static class Job {
        final String name;
        final int priority;
        int state = READY;
        int turns;
        Job needs;

        Job(String name, int priority) {
            this.name = name;
            this.priority = priority;
        }

        Job after(Job other) {
            needs = other;
            state = WAITING;
            return this;
        }

        /** One turn; whether the job is done. */
        abstract boolean turn();

        String outcome() {
            return "";
        }
    }

    static final class Counting extends Job {
        private final int to;
        private int n;
        long sum;

        Counting(String name, int priority, int to) {
            super(name, priority);
            this.to = to;
        }

        boolean turn() {
            for (int i = 0; i < 10 && n < to; i++) {
                n++;
                sum += n;
            }
            return n == to;
        }

        String outcome() {
            return ", sum " + sum;
        }
    }

    static final class Shaky extends Job {
        private int failures;

        Shaky(String name, int priority, int failures) {
            super(name, priority);
            this.failures = failures;
        }

        boolean turn() {
            if (failures-- > 0) {
                throw new IllegalStateException(failures > 0 ? "shaky" : "nearly");
            }
            return true;
        }
    }

    static final class Dividing extends Job {
        private final Counting of;
        private long result;

        Dividing(String name, int priority, Counting of) {
            super(name, priority);
            this.of = of;
        }

        boolean turn() {
            result = 1000000 / of.sum;
            return true;
        }

        String outcome() {
            return ", result " + result;
        }
    }

    private final Job[] jobs = new Job[10];
    private int count;
    private int clock;
    private int last = -1;

    void add(Job job) {
        jobs[count++] = job;
    }

    /** The most urgent job that is ready; among equals the one that comes round next. */
    private Job next() {
        int best = -1;
        for (int i = 1; i <= count; i++) {
            int at = (last + i + count) % count;
            if (jobs[at].state == READY && (best < 0 || jobs[at].priority > jobs[best].priority)) {
                best = at;
            }
        }
        if (best < 0) {
            return null;
        }
        last = best;
        return jobs[best];
    }

    private void wake() {
        for (int i = 0; i < count; i++) {
            Job job = jobs[i];
            if (job.state == WAITING && job.needs.state >= DONE) {
                job.state = job.needs.state == DONE ? READY : FAILED;
                log(job, job.state == READY ? "has what it needs" : "is given up, as " + job.needs.name + " failed");
            }
        }
    }

    private void log(Job job, String what) {
        System.out.println((clock < 10 ? " " : "") + clock + "  " + job.name + " " + what);
    }

    void run() {
        for (Job job = next(); job != null; job = next()) {
            clock++;
            job.turns++;
            try {
                if (job.turn()) {
                    job.state = DONE;
                    log(job, "is done in " + job.turns + (job.turns == 1 ? " turn" : " turns") + job.outcome());
                }
            } catch (IllegalStateException e) {
                log(job, "failed: " + e.getMessage());
                if (job.turns >= 3) {
                    job.state = FAILED;
                    log(job, "isn't tried again");
                }
            } catch (ArithmeticException e) {
                job.state = FAILED;
                log(job, "divided by zero");
            } finally {
                wake();
            }
        }
        for (int i = 0; i < count; i++) {
            if (jobs[i].state == WAITING) {
                log(jobs[i], "waits for ever for " + jobs[i].needs.name);
            }
        }
    }

    public static void main(String[] args) {
        Scheduler machine = new Scheduler();
        Counting small = new Counting("small count", 1, 25);
        Counting large = new Counting("large count", 1, 60);
        Counting none = new Counting("no count", 2, 0);
        Job shaky = new Shaky("shaky job", 3, 2);
        Job hopeless = new Shaky("hopeless job", 2, 9);
        Job egg = new Counting("egg", 5, 1);
        Job hen = new Counting("hen", 5, 1).after(egg);
        machine.add(small);
        machine.add(large);
        machine.add(none);
        machine.add(shaky);
        machine.add(hopeless);
        machine.add(new Dividing("division of small", 9, small).after(small));
        machine.add(new Dividing("division of none", 9, none).after(none));
        machine.add(new Counting("after hopeless", 9, 10).after(hopeless));
        machine.add(egg.after(hen));
        machine.add(hen);
        machine.run();
    }
}
