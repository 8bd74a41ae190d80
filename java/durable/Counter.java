import autopersist.DurableRoot;

/** Counts its runs: the object that a durable root reaches outlives the process. */
class Counter {
    int count;
    @DurableRoot static Counter counter;

    public static void main(String[] args) {
        if (counter == null) counter = new Counter();
        counter.count++;
        System.out.println("run " + counter.count);
    }
}
