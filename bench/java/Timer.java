import java.io.ByteArrayOutputStream;
import java.io.PrintStream;
import java.lang.management.ManagementFactory;
import java.lang.management.ThreadMXBean;
import java.lang.reflect.Method;

/**
 * For a JDK alone: runs main of a class several times, and prints the least of the times in nanoseconds, on the clock and of the
 * processor, and then what it printed.
 */
public class Timer {
    public static void main(String[] words) throws Exception {
        Class<?> timed = Class.forName(words[0]);
        Method main = timed.getDeclaredMethod("main", String[].class);
        main.setAccessible(true);
        PrintStream out = System.out;
        ThreadMXBean threads = ManagementFactory.getThreadMXBean();
        long least = Long.MAX_VALUE;
        long leastUsed = Long.MAX_VALUE;
        ByteArrayOutputStream printed = null;
        for (int i = 0; i < Integer.parseInt(words[1]); i++) {
            printed = new ByteArrayOutputStream();
            System.setOut(new PrintStream(printed));
            long usedBefore = threads.getCurrentThreadCpuTime();
            long begun = System.nanoTime();
            main.invoke(null, (Object) new String[0]);
            least = Math.min(least, System.nanoTime() - begun);
            leastUsed = Math.min(leastUsed, threads.getCurrentThreadCpuTime() - usedBefore);
            System.out.flush();
        }
        out.println(least + " " + leastUsed);
        out.print(printed);
    }
}
