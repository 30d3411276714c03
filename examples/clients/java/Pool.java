import java.io.IOException;
import java.util.ArrayList;
import java.util.List;
import java.util.Map;
import java.util.concurrent.ExecutorService;
import java.util.concurrent.Executors;
import java.util.concurrent.Future;

/**
 * A pool of workers: tasks are written into one space, workers take them, and write what came of them into another.
 *
 * <pre>java -cp CLASSES Pool HOST:PORT</pre>
 *
 * <p>It opens five connections. A task and its result change hands under one transaction: a worker that broke off
 * between the two would leave the task where it was, for another to take. A worker that finds no task, or whose
 * transaction ends before its work does, begins anew, so that the pool outlives any time without work. It leaves
 * nothing behind.
 */
public class Pool {
    private static final int WORKERS = 4;
    private static final int TASKS = 40;

    /** How long a worker waits for a task, in milliseconds. */
    private static final long WAIT = 20_000;

    /** How long its transaction may last, which is longer than the wait and the work together. */
    private static final long LEASE = 60_000;

    public static void main(String[] args) throws Exception {
        ExecutorService threads = Executors.newFixedThreadPool(WORKERS);
        try (Jsp jsp = Jsp.connect(args[0])) {
            declare(jsp);
            List<Future<?>> workers = new ArrayList<>();
            for (int number = 0; number < WORKERS; number++) {
                String name = "worker " + number;
                workers.add(threads.submit(() -> work(args[0], name, WAIT, LEASE)));
            }
            // A task that nobody takes within the hour of its lease is gone: whoever wants it longer renews that.
            for (int k = 1; k <= TASKS; k++) {
                jsp.space("a").write(Jsp.entry("Task").with("k", k), null, Jsp.LONGEST);
            }
            System.out.println("squares:" + squares(jsp));
            for (int number = 0; number < WORKERS; number++) {
                jsp.space("a").write(Jsp.entry("Task"), null, Jsp.LONGEST);
            }
            for (Future<?> worker : workers) {
                worker.get();
            }
            Jsp.Entry task = jsp.space("a").read(Jsp.entry("Task"), null, Jsp.NO_WAIT);
            Jsp.Entry result = jsp.space("b").read(Jsp.entry("Result"), null, Jsp.NO_WAIT);
            System.out.println("tasks left: " + task + " results left: " + result);
        } finally {
            threads.shutdownNow();
        }
    }

    static void declare(Jsp jsp) throws IOException, InterruptedException {
        jsp.declare("Task", Map.of("k", Jsp.Kind.INT));
        jsp.declare("Result", Map.of("k", Jsp.Kind.INT, "square", Jsp.Kind.INT, "worker", Jsp.Kind.TEXT));
    }

    /** Takes the results in the order of their tasks. */
    private static String squares(Jsp jsp) throws IOException, InterruptedException {
        StringBuilder squares = new StringBuilder();
        for (int k = 1; k <= TASKS; k++) {
            Jsp.Entry result = jsp.space("b").take(Jsp.entry("Result").with("k", k), null, Jsp.FOREVER);
            squares.append(' ').append(result.number("square"));
        }
        return squares.toString();
    }

    /** Does tasks until it takes one that has no number. It answers nothing. */
    static Void work(String address, String name, long wait, long lease) throws IOException, InterruptedException {
        try (Jsp jsp = Jsp.connect(address)) {
            boolean goesOn = true;
            while (goesOn) {
                try {
                    goesOn = workOnce(jsp, name, wait, lease);
                } catch (Jsp.TransactionLost lost) {
                    // Nothing of it was done, and if it had a task, that is there again.
                }
            }
            return null;
        }
    }

    /** Takes a task and writes the square of its number, or neither. It is false where the task was the last one. */
    static boolean workOnce(Jsp jsp, String name, long wait, long lease) throws IOException, InterruptedException {
        try (Jsp.Transaction txn = jsp.transaction(lease)) {
            Jsp.Entry task = jsp.space("a").take(Jsp.entry("Task"), txn, wait);
            if (task == null) {
                return true;
            }
            Long k = task.number("k");
            if (k != null) {
                Jsp.Entry result = Jsp.entry("Result").with("k", k).with("square", k * k).with("worker", name);
                jsp.space("b").write(result, txn, Jsp.LONGEST);
            }
            txn.commit();
            return k != null;
        }
    }
}
