import java.lang.invoke.MethodHandles;
import java.lang.invoke.VarHandle;
import java.lang.management.ManagementFactory;
import java.util.concurrent.CyclicBarrier;

/**
 * Times writes of a field of a box by Java's write barriers, or reads of one.
 *
 * Writes THREADS WRITES COLLECTING NODES LEAST [reads]
 *
 * The field names one value and another in turn: by a plain write of values beside the box (opaque,
 * so that none is left out), by the same of values in regions of their own (far), by a volatile
 * store, by a compare and exchange. With `reads` it is read instead: by a plain read (opaque, for
 * the same reason), by a volatile one. With COLLECTING 1 a live tree of NODES nodes is made, and
 * System.gc is called again and again meanwhile, with flags by which that is a concurrent cycle.
 * WRITES are made as often as it takes to last for LEAST ms. A line for each kind and thread: the
 * kind, nanoseconds by the clock and of the thread's own processor time, the writes that were made
 * and those that were tried, and from when to when, in ms since 1970.
 */
public final class Writes {
    static final class Node {
        Node left, right;
    }

    /** Long enough that no two have their field on one line. */
    static final class Box {
        Object field;
        long a, b, c, d, e, f, g, h, i, j, k, l, m, n, o, p;
    }

    static final VarHandle FIELD;
    static final String[] KINDS = {"plain", "far", "store", "exchange"};
    static final String[] READS = {"read", "load"};
    static volatile boolean done;
    static Node live;
    static Box[] boxes;
    static Object[][] near, far;

    static {
        try {
            FIELD = MethodHandles.lookup().findVarHandle(Box.class, "field", Object.class);
        } catch (ReflectiveOperationException why) {
            throw new Error(why);
        }
    }

    static Node tree(int nodes) {
        if (nodes == 0) return null;
        Node made = new Node();
        int half = (nodes - 1) / 2;
        made.left = tree(half);
        made.right = tree(nodes - 1 - half);
        return made;
    }

    static long plain(Box box, Object one, Object other, long turns) {
        for (long t = 0; t < turns; t++) {
            for (int k = 0; k < 32; k++) {
                FIELD.setOpaque(box, other);
                FIELD.setOpaque(box, one);
            }
        }
        return 64 * turns;
    }

    static long stores(Box box, Object one, Object other, long turns) {
        for (long t = 0; t < turns; t++) {
            for (int k = 0; k < 32; k++) {
                FIELD.setVolatile(box, other);
                FIELD.setVolatile(box, one);
            }
        }
        return 64 * turns;
    }

    static long exchanges(Box box, Object one, Object other, long turns) {
        long made = 0;
        for (long t = 0; t < turns; t++) {
            for (int k = 0; k < 32; k++) {
                if (FIELD.compareAndSet(box, one, other)) made++;
                if (FIELD.compareAndSet(box, other, one)) made++;
            }
        }
        return made;
    }

    static long reads(Box box, Object one, long turns) {
        long found = 0;
        for (long t = 0; t < turns; t++) {
            for (int k = 0; k < 64; k++) {
                if (FIELD.getOpaque(box) == one) found++;
            }
        }
        return found;
    }

    static long loads(Box box, Object one, long turns) {
        long found = 0;
        for (long t = 0; t < turns; t++) {
            for (int k = 0; k < 64; k++) {
                if (FIELD.getVolatile(box) == one) found++;
            }
        }
        return found;
    }

    static long write(String kind, int thread, long turns) {
        Box box = boxes[thread];
        Object[] values = kind.equals("far") ? far[thread] : near[thread];
        box.field = values[0];
        switch (kind) {
            case "store": return stores(box, values[0], values[1], turns);
            case "exchange": return exchanges(box, values[0], values[1], turns);
            case "read": return reads(box, values[0], turns);
            case "load": return loads(box, values[0], turns);
            default: return plain(box, values[0], values[1], turns);
        }
    }

    static String timed(String kind, int thread, long turns, long least, CyclicBarrier start) {
        try {
            for (int k = 0; k < 20; k++) write(kind, thread, 2_000);
            var times = ManagementFactory.getThreadMXBean();
            start.await();
            double at = System.currentTimeMillis();
            long from = System.nanoTime(), cpu = times.getCurrentThreadCpuTime();
            long made = 0, tried = 0;
            while (tried == 0 || System.nanoTime() - from < 1_000_000 * least) {
                tried += 64 * turns;
                made += write(kind, thread, turns);
            }
            cpu = times.getCurrentThreadCpuTime() - cpu;
            long wall = System.nanoTime() - from;
            return String.format("%s %d %d %d %d %.3f %.3f", kind, wall, cpu, made, tried, at,
                    at + wall / 1e6);
        } catch (Exception why) {
            throw new Error(why);
        }
    }

    public static void main(String[] args) throws Exception {
        int threads = Integer.parseInt(args[0]);
        long turns = Long.parseLong(args[1]) / 64;
        boolean collecting = args[2].equals("1");
        long least = Long.parseLong(args[4]);
        boxes = new Box[threads];
        near = new Object[threads][2];
        far = new Object[threads][2];
        for (int k = 0; k < threads; k++) {
            boxes[k] = new Box();
            for (int v = 0; v < 2; v++) {
                near[k][v] = new Object();
                far[k][v] = new byte[1 << 20];
            }
        }
        if (collecting) live = tree(Integer.parseInt(args[3]));
        for (int k = 0; k < 2; k++) System.gc();
        Thread collector = new Thread(() -> {
            while (!done) System.gc();
        });
        if (collecting) collector.start();
        for (String kind : args.length > 5 ? READS : KINDS) {
            var start = new CyclicBarrier(threads);
            String[] lines = new String[threads];
            Thread[] running = new Thread[threads];
            for (int k = 0; k < threads; k++) {
                int thread = k;
                running[k] = new Thread(() -> {
                    lines[thread] = timed(kind, thread, turns, least, start);
                });
                running[k].start();
            }
            for (Thread one : running) one.join();
            for (String line : lines) System.out.println(line);
        }
        done = true;
        collector.join();
        if (collecting && live == null) throw new Error();
    }
}
