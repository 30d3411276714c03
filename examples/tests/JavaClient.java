import java.io.IOException;
import java.io.InputStream;
import java.io.OutputStream;
import java.net.InetAddress;
import java.net.ServerSocket;
import java.net.Socket;
import java.nio.file.Files;
import java.nio.file.Path;
import java.util.ArrayList;
import java.util.HashMap;
import java.util.LinkedHashMap;
import java.util.List;
import java.util.Map;
import java.util.Set;
import java.util.concurrent.Callable;
import java.util.concurrent.ExecutorService;
import java.util.concurrent.Executors;
import java.util.concurrent.Future;
import java.util.concurrent.TimeUnit;
import java.util.regex.Matcher;
import java.util.regex.Pattern;

/**
 * The client in Java, and the pool of workers that stands on it: what they throw, and what is left where things end.
 *
 * <pre>java -cp CLASSES JavaClient CASE HOST:PORT</pre>
 *
 * <p>It is run in the folder of the examples. Each case is run against a server of its own, and prints nothing where
 * all is as it should be. {@code JavaClient cases} lists them, with how many connections each opens.
 */
public class JavaClient {
    private static final long LONG = 60_000;
    private static final Jsp.Entry JOB = Jsp.entry("Job");

    private record Case(int connections, Check check) {}

    private interface Check {
        void run(String address) throws Exception;
    }

    private static final Map<String, Case> CASES = new LinkedHashMap<>();

    static {
        CASES.put("refusals_have_their_names", new Case(1, JavaClient::refusalsHaveTheirNames));
        CASES.put("texts_come_back", new Case(1, JavaClient::textsComeBack));
        CASES.put("json_is_read", new Case(1, JavaClient::jsonIsRead));
        CASES.put("leases_last_as_granted", new Case(1, JavaClient::leasesLastAsGranted));
        CASES.put("leases_are_renewed_together", new Case(2, JavaClient::leasesAreRenewedTogether));
        CASES.put("leases_are_cancelled_together", new Case(1, JavaClient::leasesAreCancelledTogether));
        CASES.put("operations_give_what_they_say", new Case(1, JavaClient::operationsGiveWhatTheySay));
        CASES.put("transactions_are_whole", new Case(2, JavaClient::transactionsAreWhole));
        CASES.put("a_lost_transaction_gives_back", new Case(2, JavaClient::aLostTransactionGivesBack));
        CASES.put("a_pool_outlives_a_time_without_work", new Case(3, JavaClient::aPoolOutlivesATimeWithoutWork));
        CASES.put("events_are_told", new Case(2, JavaClient::eventsAreTold));
        CASES.put("events_end_with_their_connection", new Case(1, JavaClient::eventsEndWithTheirConnection));
        CASES.put("many_threads_on_one_connection", new Case(1, JavaClient::manyThreadsOnOneConnection));
        CASES.put("a_wait_is_interrupted", new Case(1, JavaClient::aWaitIsInterrupted));
        CASES.put("a_connection_breaks_at_a_write", new Case(4, JavaClient::aConnectionBreaksAtAWrite));
        CASES.put("a_connection_breaks_in_a_transaction", new Case(2, JavaClient::aConnectionBreaksInATransaction));
    }

    public static void main(String[] args) throws Exception {
        if (args[0].equals("cases")) {
            CASES.forEach((name, one) -> System.out.println(name + " " + one.connections));
        } else {
            CASES.get(args[0]).check.run(args[1]);
            System.exit(0); // also where a thread of the case is left
        }
    }

    // ---- What cases have in common ----

    private static void check(boolean holds, Object shown) {
        if (!holds) {
            throw new AssertionError(shown);
        }
    }

    private static void isSame(Object found, Object wanted) {
        check(wanted == null ? found == null : wanted.equals(found), found + " where " + wanted + " was to be");
    }

    /** The work throws this very kind of exception. */
    private static <E extends Exception> E fails(Class<E> kind, Callable<?> work) {
        Object answer;
        try {
            answer = work.call();
        } catch (Exception failure) {
            check(failure.getClass() == kind, failure);
            return kind.cast(failure);
        }
        throw new AssertionError(answer + " where " + kind + " was to be thrown");
    }

    private static void isRefused(Jsp.Refusal refusal, Callable<?> work) {
        isSame(fails(Jsp.Refused.class, work).refusal(), refusal);
    }

    private static void isLost(Jsp.Refusal refusal, Callable<?> work) {
        isSame(fails(Jsp.TransactionLost.class, work).refusal(), refusal);
    }

    /** Does the work while the caller goes on, and has begun to wait. */
    private static void later(Callable<Void> work) {
        Executors.newSingleThreadScheduledExecutor().schedule(work, 200, TimeUnit.MILLISECONDS);
    }

    private static Jsp.Entry job(long k) {
        return JOB.with("k", k);
    }

    private static List<Jsp.Entry> jobs(int count) {
        List<Jsp.Entry> jobs = new ArrayList<>();
        for (int k = 1; k <= count; k++) {
            jobs.add(job(k));
        }
        return jobs;
    }

    private static Jsp withJobs(String address) throws Exception {
        Jsp jsp = Jsp.connect(address);
        jsp.declare("Job", Map.of("k", Jsp.Kind.INT));
        return jsp;
    }

    // ---- Cases ----

    /** The table of refusals is that of docs/PROTOCOL.md, and some of them are met. */
    private static void refusalsHaveTheirNames(String address) throws Exception {
        String page = Files.readString(Path.of("../docs/PROTOCOL.md"));
        Matcher row = Pattern.compile("^\\| (\\d+) \\| (\\w+) \\| (.*) \\|$", Pattern.MULTILINE).matcher(page);
        Map<String, String> ofPage = new HashMap<>();
        while (row.find()) {
            ofPage.put(row.group(1), row.group(2) + ": " + row.group(3));
        }
        isSame(ofPage.size(), 22);
        for (Jsp.Refusal refusal : Jsp.Refusal.values()) {
            if (refusal != Jsp.Refusal.UNKNOWN) {
                isSame(refusal.title + ": " + refusal.words, ofPage.get(Integer.toString(refusal.number)));
            }
        }
        isSame(Jsp.Refusal.values().length, 23);

        try (Jsp jsp = withJobs(address)) {
            Jsp.Space a = jsp.space("a");
            isRefused(Jsp.Refusal.UNKNOWN_SPACE, () -> jsp.space("c").write(job(1), null, LONG));
            isRefused(Jsp.Refusal.UNKNOWN_CLASS, () -> a.read(Jsp.entry("Car"), null, 0));
            isRefused(Jsp.Refusal.BAD_ENTRY, () -> a.write(JOB.with("k", "one"), null, LONG));
            isRefused(Jsp.Refusal.BAD_LEASE, () -> a.write(job(1), null, -2));
            isRefused(Jsp.Refusal.BAD_TIMEOUT, () -> a.take((Jsp.Entry) null, null, -1));
            isSame(a.read(null, null, 0), null);
        }
    }

    /** Whatever a text holds; and what can't be sent isn't, and the connection goes on. */
    private static void textsComeBack(String address) throws Exception {
        try (Jsp jsp = Jsp.connect(address)) {
            jsp.declare("Note", Map.of("text", Jsp.Kind.TEXT, "done", Jsp.Kind.BOOL, "n", Jsp.Kind.INT));
            StringBuilder controls = new StringBuilder();
            for (char one = 0; one <= 0x7f; one++) {
                controls.append(one);
            }
            for (String text : List.of("", "\"\\/", "ß", "\u2028\u2029\ufeff", "\ud83d\ude00", controls.toString())) {
                Jsp.Entry note = Jsp.entry("Note").with("text", text).with("done", true).with("n", Long.MIN_VALUE);
                jsp.space("a").write(note, null, LONG);
                isSame(jsp.space("a").take(note, null, 0), note);
            }
            Jsp.Entry halved = Jsp.entry("Note").with("text", "\ud83d");
            fails(IllegalArgumentException.class, () -> jsp.space("a").write(halved, null, LONG));
            Jsp.Entry large = Jsp.entry("Note").with("text", "x".repeat(1_048_576));
            fails(IllegalArgumentException.class, () -> jsp.space("a").write(large, null, LONG));
            isSame(jsp.spaces(), List.of("a", "b"));
        }
    }

    /** JSON of forms that no server of ours writes, and what is none. */
    private static void jsonIsRead(String address) throws Exception {
        String text = " { \"a\" : [ 1 , -2,null,true , false ,[ ],{ } ] ,\r\n\t"
                + "\"\\u00e9\\ud83d\\ude00\\/\\b\\f\\n\\r\\t\\\"\\\\\":\"\" } ";
        Jsp.Json read = Jsp.Json.read(text);
        isSame(read.toString(), "{\"a\":[1,-2,null,true,false,[],{}],"
                + "\"é\ud83d\ude00/\\u0008\\u000c\\u000a\\u000d\\u0009\\\"\\\\\":\"\"}");
        isSame(Jsp.Json.read(read.toString()), read);
        isSame(Jsp.Json.read("9223372036854775807").whole(), Long.MAX_VALUE);
        for (String wrong : List.of("", " ", "{", "[", "}", "\"", "\"\\", "\"\\u12", "\"\\u12g4\"", "\"\\x\"",
                "{\"a\"}", "{\"a\":}", "{a:1}", "[1,]", "[1 2]", "[,1]", "tru", "nul", "-", "1.5", "1e3",
                "9223372036854775808", "1 2", "1\0")) {
            fails(IOException.class, () -> Jsp.Json.read(wrong));
        }
        Jsp.connect(address).close();
    }

    private static void leasesLastAsGranted(String address) throws Exception {
        try (Jsp jsp = withJobs(address)) {
            Jsp.Space a = jsp.space("a");
            isSame(a.write(job(1), null, Jsp.FOREVER).ms(), Jsp.LONGEST);
            isSame(a.write(job(2), null, Jsp.ANY).ms(), 60_000L);
            Jsp.Lease brief = a.write(job(3), null, LONG).renew(50);
            isSame(brief.ms(), 50L);
            Thread.sleep(200);
            isSame(a.read(job(3), null, 0), null);
            isRefused(Jsp.Refusal.UNKNOWN_LEASE, () -> brief.renew(50));
            Jsp.Lease kept = a.write(job(4), null, LONG);
            isRefused(Jsp.Refusal.BAD_LEASE, () -> kept.renew(-2));
            isSame(a.read(job(4), null, 0), job(4));
            kept.cancel();
            isSame(a.read(job(4), null, 0), null);
        }
    }

    private static Jsp.LeaseMap leaseMap(Jsp jsp, List<Jsp.Lease> leases, long ms) {
        Jsp.LeaseMap map = jsp.leaseMap();
        leases.forEach(lease -> map.put(lease, ms));
        return map;
    }

    private static Map<Jsp.Lease, Jsp.Refusal> refusals(Jsp.LeaseMapException failure) {
        Map<Jsp.Lease, Jsp.Refusal> refusals = new HashMap<>();
        failure.exceptionMap().forEach((lease, refused) -> refusals.put(lease, refused.refusal()));
        return refusals;
    }

    /** Each for its own time, a transaction's too. One that is refused leaves the map, and the others renewed. */
    private static void leasesAreRenewedTogether(String address) throws Exception {
        try (Jsp jsp = withJobs(address);
                Jsp other = Jsp.connect(address)) {
            Jsp.Space a = jsp.space("a");
            List<Jsp.Lease> leases = a.write(jobs(4), null, LONG);
            Jsp.Lease brief = leases.get(0);
            Jsp.Lease wrong = leases.get(2);
            Jsp.Lease gone = leases.get(3);
            gone.cancel();
            Jsp.LeaseMap map = leaseMap(jsp, leases, Jsp.ANY);
            map.put(brief, 50L);
            map.put(wrong, -2L);
            Jsp.Transaction txn = jsp.transaction(LONG);
            map.put(txn.lease(), Jsp.FOREVER);

            Jsp.LeaseMapException failure = fails(Jsp.LeaseMapException.class, map::renewAll);
            isSame(refusals(failure), Map.of(wrong, Jsp.Refusal.BAD_LEASE, gone, Jsp.Refusal.UNKNOWN_LEASE));
            isSame(map.keySet(), Set.of(brief, leases.get(1), txn.lease()));
            isSame(failure.renewed().values().stream().map(Jsp.Lease::ms).toList(), List.of(50L, 60_000L, Jsp.LONGEST));
            isSame(failure.renewed().get(brief).number(), brief.number());
            Thread.sleep(200);
            isSame(a.read(job(1), null, 0), null);
            isSame(a.read(job(2), null, 0), job(2));
            isSame(a.read(job(3), null, 0), job(3)); // a refused renewal leaves the lease as it was

            isSame(map.remove(brief), 50L);
            isSame(map.renewAll().keySet(), Set.of(leases.get(1), txn.lease()));
            txn.abort();
            isSame(jsp.leaseMap().renewAll(), Map.of());
            Jsp.Lease foreign = other.space("a").write(job(5), null, LONG);
            check(map.canContainKey(brief) && !map.canContainKey(foreign) && !map.canContainKey("lease"), map);
            fails(IllegalArgumentException.class, () -> map.put(foreign, LONG));
        }
    }

    /** As many as a request has, and some that are gone already. Of more than that nothing is done. */
    private static void leasesAreCancelledTogether(String address) throws Exception {
        try (Jsp jsp = withJobs(address)) {
            Jsp.Space a = jsp.space("a");
            List<Jsp.Lease> leases = a.write(jobs(64), null, LONG);
            Jsp.Lease last = a.write(job(65), null, LONG);
            Jsp.LeaseMap map = leaseMap(jsp, leases, LONG);
            map.put(last, LONG);
            fails(IllegalArgumentException.class, map::renewAll);
            fails(IllegalArgumentException.class, () -> cancelAll(map));
            isSame(a.take(List.of(job(1), job(64)), null, 0, 16), List.of(job(1), job(64)));

            map.remove(last);
            Jsp.LeaseMapException failure = fails(Jsp.LeaseMapException.class, () -> cancelAll(map));
            isSame(refusals(failure), Map.of(
                    leases.get(0), Jsp.Refusal.UNKNOWN_LEASE, leases.get(63), Jsp.Refusal.UNKNOWN_LEASE));
            isSame(failure.renewed(), Map.of());
            isSame(map.keySet(), Set.copyOf(leases.subList(1, 63)));
            isSame(a.take((Jsp.Entry) null, null, 0), job(65));
            isSame(a.read(null, null, 0), null);
            isSame(refusals(fails(Jsp.LeaseMapException.class, map::renewAll)).size(), 62);
            check(map.isEmpty(), map);
            cancelAll(map); // of none, which asks nothing

            leaseMap(jsp, a.write(jobs(64), null, LONG), LONG).cancelAll();
            isSame(a.read(null, null, 0), null);
        }
    }

    private static Void cancelAll(Jsp.LeaseMap map) throws Exception {
        map.cancelAll();
        return null;
    }

    /** Of those that no other case or example has. */
    private static void operationsGiveWhatTheySay(String address) throws Exception {
        try (Jsp jsp = withJobs(address)) {
            Jsp.Space a = jsp.space("a");
            jsp.declare("Rush", "Job", Map.of("n", Jsp.Kind.INT));
            Jsp.Entry rush = Jsp.entry("Rush").with("k", 2).with("n", 9);
            List<Jsp.Lease> leases = a.write(List.of(job(1), rush, job(3)), null, Jsp.ANY);
            isSame(leases.stream().map(Jsp.Lease::ms).toList(), List.of(60_000L, 60_000L, 60_000L));
            isSame(leases.stream().map(Jsp.Lease::number).distinct().count(), 3L);
            isSame(a.read(job(2), null, 0), rush);
            isSame(a.take(List.of(job(3), job(1)), null, 0, 16), List.of(job(1), job(3)));
            isSame(a.take(List.of(job(1)), null, 0, 16), List.of());
            isSame(a.readIfExists(null, null, LONG), rush);
            isSame(a.takeIfExists(null, null, LONG), rush);
            isSame(a.takeIfExists(null, null, LONG), null);

            List<Jsp.Entry> jobs = jobs(40);
            a.write(jobs, null, LONG);
            try (Jsp.MatchSet listing = a.contents(JOB, null, LONG)) {
                for (Jsp.Entry job : jobs) {
                    isSame(listing.next(), job);
                }
                isSame(listing.next(), null);
            }
            Jsp.MatchSet brief = a.contents(JOB, null, 1_000);
            isSame(brief.next(), job(1));
            Thread.sleep(1_500);
            for (int k = 2; k <= 16; k++) {
                isSame(brief.next(), job(k)); // of the page that is there
            }
            isRefused(Jsp.Refusal.UNKNOWN_LEASE, brief::next);
            brief.close();
            a.reset();
            isSame(a.read(null, null, 0), null);
        }
    }

    private static void transactionsAreWhole(String address) throws Exception {
        try (Jsp jsp = withJobs(address);
                Jsp other = Jsp.connect(address)) {
            Jsp.Space a = jsp.space("a");
            Jsp.Space seen = other.space("a");
            try (Jsp.Transaction txn = jsp.transaction(LONG)) {
                a.write(job(1), txn, LONG);
                isSame(seen.read(null, null, 0), null);
                txn.commit();
            }
            isSame(seen.take((Jsp.Entry) null, null, 0), job(1));
            try (Jsp.Transaction txn = jsp.transaction(LONG)) {
                a.write(job(2), txn, LONG);
            }
            isSame(seen.read(null, null, 0), null);
            try (Jsp.Transaction txn = jsp.transaction(LONG)) {
                a.write(job(3), txn, LONG);
                other.space("a").reset();
                isLost(Jsp.Refusal.CRASH_COUNT, () -> a.read(null, txn, 0));
                isLost(Jsp.Refusal.ABORTED, () -> {
                    txn.commit();
                    return null;
                });
            }
            isSame(seen.read(null, null, 0), null);
        }
    }

    /** It ends before the work does: what it took is there again. */
    private static void aLostTransactionGivesBack(String address) throws Exception {
        try (Jsp jsp = withJobs(address);
                Jsp other = Jsp.connect(address)) {
            jsp.space("a").write(job(1), null, LONG);
            isLost(Jsp.Refusal.UNKNOWN_TRANSACTION, () -> {
                try (Jsp.Transaction txn = jsp.transaction(50)) {
                    isSame(jsp.space("a").take((Jsp.Entry) null, txn, 0), job(1));
                    Thread.sleep(200);
                    txn.commit();
                    return null;
                }
            });
            isSame(other.space("a").read(null, null, 0), job(1));
            try (Jsp.Transaction txn = jsp.transaction(1_000)) {
                txn.lease().renew(LONG);
                Thread.sleep(1_500);
                jsp.space("a").take((Jsp.Entry) null, txn, 0);
                txn.commit();
            }
            isSame(other.space("a").read(null, null, 0), null);
        }
    }

    /** One worker's waits end, again and again, and the other's transactions: then tasks come, and all are done. */
    private static void aPoolOutlivesATimeWithoutWork(String address) throws Exception {
        long brief = 200;
        ExecutorService threads = Executors.newFixedThreadPool(2);
        try (Jsp jsp = Jsp.connect(address)) {
            Pool.declare(jsp);
            check(Pool.workOnce(jsp, "idle", 10, LONG), "no task, and no wish to go on");
            fails(Jsp.TransactionLost.class, () -> Pool.workOnce(jsp, "idle", LONG, brief));
            Future<Void> waitsBriefly = threads.submit(() -> Pool.work(address, "waits briefly", brief, LONG));
            Future<Void> lastsBriefly = threads.submit(() -> Pool.work(address, "lasts briefly", LONG, brief));
            Thread.sleep(4 * brief);
            List<Jsp.Entry> tasks = new ArrayList<>();
            for (int k = 1; k <= 40; k++) {
                tasks.add(Jsp.entry("Task").with("k", k));
            }
            jsp.space("a").write(tasks, null, LONG);
            for (long k = 1; k <= 40; k++) {
                isSame(jsp.space("b").take(Jsp.entry("Result").with("k", k), null, LONG).number("square"), k * k);
            }
            jsp.space("a").write(List.of(Jsp.entry("Task"), Jsp.entry("Task")), null, LONG);
            waitsBriefly.get();
            lastsBriefly.get();
            isSame(jsp.space("a").read(null, null, 0), null);
            isSame(jsp.space("b").read(null, null, 0), null);
        }
    }

    private static void eventsAreTold(String address) throws Exception {
        try (Jsp jsp = withJobs(address);
                Jsp other = Jsp.connect(address)) {
            Jsp.Space a = jsp.space("a");
            Jsp.EventRegistration all = a.notify(JOB, null, LONG, "all");
            Jsp.EventRegistration twos = a.notify(job(2), null, LONG, "twos");
            isSame(all.lease().ms(), LONG);
            isSame(all.next(0), null);
            for (Jsp.Entry job : jobs(3)) {
                other.space("a").write(job, null, LONG);
            }
            for (long number = 1; number <= 3; number++) {
                isSame(all.next(LONG), new Jsp.RemoteEvent(all.lease().number(), number, "all"));
            }
            isSame(twos.next(LONG), new Jsp.RemoteEvent(twos.lease().number(), 1, "twos"));
            twos.close();
            other.space("a").write(job(2), null, LONG);
            isSame(all.next(LONG).sequenceNumber(), 4L);
            isSame(twos.next(100), null);
        }
    }

    /** Who waits for one is told, and who asks later. */
    private static void eventsEndWithTheirConnection(String address) throws Exception {
        Jsp jsp = withJobs(address);
        Jsp.EventRegistration all = jsp.space("a").notify(JOB, null, LONG, "all");
        later(() -> {
            jsp.close();
            return null;
        });
        fails(IOException.class, () -> all.next(LONG));
        fails(IOException.class, () -> all.next(LONG));
        fails(IOException.class, jsp::spaces);
    }

    /** Forty takes wait on it, and one write of another thread answers each. */
    private static void manyThreadsOnOneConnection(String address) throws Exception {
        ExecutorService threads = Executors.newFixedThreadPool(40);
        try (Jsp jsp = withJobs(address)) {
            List<Future<Jsp.Entry>> waits = new ArrayList<>();
            for (Jsp.Entry job : jobs(40)) {
                waits.add(threads.submit(() -> jsp.space("a").take(job, null, LONG)));
            }
            jsp.space("a").write(jobs(40), null, LONG);
            for (int k = 1; k <= 40; k++) {
                isSame(waits.get(k - 1).get(), job(k));
            }
        }
    }

    /** The connection goes on, and what the request gets then is nobody's. */
    private static void aWaitIsInterrupted(String address) throws Exception {
        try (Jsp jsp = withJobs(address)) {
            Thread waiter = Thread.currentThread();
            later(() -> {
                waiter.interrupt();
                return null;
            });
            fails(InterruptedException.class, () -> jsp.space("a").take(JOB, null, LONG));
            jsp.space("a").write(job(1), null, LONG);
            isSame(jsp.space("a").take(JOB, null, 0), null);
            isSame(jsp.spaces(), List.of("a", "b"));
        }
    }

    /** How many bytes the answer to the greeting has. */
    private static final int GREETING = "....{\"id\":1,\"ok\":null}".length();

    /** No byte of its answer comes, or a few: the client throws from then on, and the entry is written. */
    private static void aConnectionBreaksAtAWrite(String address) throws Exception {
        try (Jsp other = withJobs(address)) {
            for (int more : new int[] {0, 1, 7}) {
                try (Jsp jsp = Jsp.connect(relay(address, GREETING + more))) {
                    fails(IOException.class, () -> jsp.space("a").write(job(more), null, LONG));
                    fails(IOException.class, jsp::spaces);
                }
                isSame(other.space("a").take(job(more), null, LONG), job(more));
            }
        }
    }

    /** The answer of its take doesn't come: when the transaction's lease has ended the entry is there for another. */
    private static void aConnectionBreaksInATransaction(String address) throws Exception {
        int begun = "....{\"id\":2,\"ok\":{\"lease\":2,\"ms\":300}}".length();
        try (Jsp other = withJobs(address)) {
            isSame(other.space("a").write(job(1), null, LONG).number(), 1L);
            try (Jsp jsp = Jsp.connect(relay(address, GREETING + begun))) {
                fails(IOException.class, () -> {
                    try (Jsp.Transaction txn = jsp.transaction(300)) {
                        return jsp.space("a").take(JOB, txn, 0);
                    }
                });
            }
            isSame(other.space("a").read(null, null, 0), null);
            isSame(other.space("a").take((Jsp.Entry) null, null, LONG), job(1));
        }
    }

    /**
     * The address of a relay to the server for one connection. It hands on so many bytes of what the server says, and
     * then closes both sides.
     */
    private static String relay(String address, int most) throws IOException {
        ServerSocket door = new ServerSocket(0, 1, InetAddress.getLoopbackAddress());
        int colon = address.lastIndexOf(':');
        String host = address.substring(0, colon);
        int port = Integer.parseInt(address.substring(colon + 1));
        start(() -> {
            try (door;
                    Socket client = door.accept();
                    Socket server = new Socket(host, port)) {
                start(() -> handOn(client.getInputStream(), server.getOutputStream(), Integer.MAX_VALUE));
                handOn(server.getInputStream(), client.getOutputStream(), most);
                server.getInputStream().read(); // what is cut off was said, so the request was done
            }
        });
        return host + ":" + door.getLocalPort();
    }

    private interface Work {
        void run() throws IOException;
    }

    private static void start(Work work) {
        Thread thread = new Thread(() -> {
            try {
                work.run();
            } catch (IOException closed) {
                // One of both sides has ended, as is wanted.
            }
        });
        thread.setDaemon(true);
        thread.start();
    }

    private static void handOn(InputStream reader, OutputStream writer, int most) throws IOException {
        byte[] piece = new byte[65_536];
        for (int left = most; left > 0; ) {
            int count = reader.read(piece, 0, Math.min(left, piece.length));
            if (count < 0) {
                return;
            }
            writer.write(piece, 0, count);
            left -= count;
        }
    }
}
