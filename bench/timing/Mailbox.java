import com.sun.management.OperatingSystemMXBean;
import java.lang.management.ManagementFactory;
import java.util.ArrayList;
import java.util.List;
import java.util.concurrent.ConcurrentLinkedQueue;

/**
 * Times a ConcurrentLinkedQueue that several threads fill and one empties.
 *
 * <p>Mailbox SENDERS LINES RUNS
 *
 * <p>Each sender makes LINES / SENDERS numbers on a thread of its own, and the main thread takes
 * all. A line for each run: nanoseconds by the clock and of the process's processor time, what the
 * compiler and the collector take included. The first runs are compiled on the way.
 */
public class Mailbox {
    record Sent(int sender, long value) {}

    record Item(long position, int sender, long value) {}

    static final OperatingSystemMXBean SYSTEM =
            (OperatingSystemMXBean) ManagementFactory.getOperatingSystemMXBean();

    static List<Item> run(int senders, int each) throws InterruptedException {
        var queue = new ConcurrentLinkedQueue<Sent>();
        var threads = new Thread[senders];
        for (int k = 0; k < senders; k++) {
            int sender = k + 1;
            threads[k] = new Thread(() -> {
                for (long value = 0; value < each; value++) {
                    queue.add(new Sent(sender, value));
                }
            });
            threads[k].start();
        }
        var items = new ArrayList<Item>();
        while (items.size() < senders * each) {
            Sent one = queue.poll();
            if (one == null) {
                Thread.yield();
            } else {
                items.add(new Item(items.size() + 1, one.sender, one.value));
            }
        }
        for (Thread one : threads) {
            one.join();
        }
        return items;
    }

    public static void main(String[] words) throws InterruptedException {
        int senders = Integer.parseInt(words[0]);
        int each = Integer.parseInt(words[1]) / senders;
        for (int k = 0; k < Integer.parseInt(words[2]); k++) {
            long wall = System.nanoTime(), own = SYSTEM.getProcessCpuTime();
            List<Item> items = run(senders, each);
            long took = System.nanoTime() - wall, spent = SYSTEM.getProcessCpuTime() - own;
            if (items.size() != senders * each) {
                throw new AssertionError("items are missing");
            }
            System.out.println(took + " " + spent);
        }
    }
}
