package autopersist;

/**
 * Failure-atomic regions: after a power cut all durable stores of a finished region are there, and none of an open one. Nested regions
 * count as one. The runtime has methods of its own in place of these, which do nothing on another Java machine.
 */
public final class Region {
    private Region() {}

    /** Begins a region of this thread. */
    public static void begin() {}

    /** Ends the region of this thread that was begun last. */
    public static void end() {}
}
