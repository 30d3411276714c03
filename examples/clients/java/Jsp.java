import java.io.BufferedInputStream;
import java.io.DataInputStream;
import java.io.EOFException;
import java.io.IOException;
import java.io.OutputStream;
import java.net.InetSocketAddress;
import java.net.Socket;
import java.nio.ByteBuffer;
import java.nio.CharBuffer;
import java.nio.charset.CharacterCodingException;
import java.nio.charset.StandardCharsets;
import java.util.AbstractMap;
import java.util.ArrayDeque;
import java.util.ArrayList;
import java.util.Arrays;
import java.util.Collections;
import java.util.Deque;
import java.util.Iterator;
import java.util.LinkedHashMap;
import java.util.List;
import java.util.Locale;
import java.util.Map;
import java.util.Objects;
import java.util.Set;
import java.util.concurrent.BlockingQueue;
import java.util.concurrent.CompletableFuture;
import java.util.concurrent.ConcurrentHashMap;
import java.util.concurrent.ExecutionException;
import java.util.concurrent.LinkedBlockingQueue;
import java.util.concurrent.TimeUnit;
import java.util.concurrent.atomic.AtomicLong;

/**
 * A client of a jsp server, on the JDK alone (17 or later), in the words of JavaSpaces.
 *
 * <pre>{@code
 * try (Jsp jsp = Jsp.connect("127.0.0.1:7070")) {
 *     jsp.declare("Job", Map.of("k", Jsp.Kind.INT, "who", Jsp.Kind.TEXT));
 *     Jsp.Space a = jsp.space("a");
 *     a.write(Jsp.entry("Job").with("k", 1), null, 1000);
 *     System.out.println(a.take(Jsp.entry("Job").with("k", 1), null, Jsp.NO_WAIT));
 * }
 * }</pre>
 *
 * <p>Arguments come in the order that JavaSpaces has: an entry or a template, a transaction or null, a time in
 * milliseconds. A template of null matches every entry, and null is answered where no entry came within the time.
 * docs/PROTOCOL.md says what each operation does.
 *
 * <p>A Jsp is a connection, which is a session of its own. Any number of threads may use it at once: each request has
 * an id, and a thread of the client's own hands each answer to the one who asked. A session has at most 64 requests
 * that wait.
 *
 * <p>What the server refuses is thrown as {@link Refused}, and nothing of it is done. A Jsp doesn't connect again:
 * where its connection breaks, all that is asked throws IOException from then on, and the caller decides whether to
 * open another. What it has to know for that:
 *
 * <ul>
 *   <li>A request that was answered is done.
 *   <li>One that wasn't may be done or not: an entry may be written, or taken and given to nobody. The same holds where
 *       InterruptedException ends a wait.
 *   <li>What was done under a transaction whose commit wasn't asked comes to nothing, at the latest when its lease
 *       ends. So who takes an entry under a transaction doesn't lose it.
 *   <li>A commit that was asked and not answered may be decided either way, but all of it alike: any one entry that the
 *       transaction wrote or took tells which.
 *   <li>Requests that wait, registrations and match sets end with their connection. Entries and transactions don't, and
 *       classes stay declared.
 * </ul>
 *
 * <p>A server that closes idle connections (--idle) does so also while a request waits: a timeout has to be shorter.
 */
public final class Jsp implements AutoCloseable {
    /** A timeout for what is to be answered at once. */
    public static final long NO_WAIT = 0;

    /** A timeout that doesn't end. */
    public static final long FOREVER = Long.MAX_VALUE;

    /** The longest lease that is granted, an hour. A longer one may be asked for. */
    public static final long LONGEST = 3_600_000;

    /** A lease as long as the server likes, a minute. */
    public static final long ANY = -1;

    /** The longest request and the longest answer, in bytes. */
    private static final int LONGEST_FRAME = 1_048_576;

    private static final int CONNECT_MILLISECONDS = 10_000;

    /** The most leases that a {@link LeaseMap} can renew or cancel, since a request has no more. */
    public static final int MOST_LEASES = 64;

    /** How many entries a match set asks for at a time, which is the most that a page has. */
    private static final int PAGE = 16;

    /** What a registration's events end with, where the connection breaks. */
    private static final RemoteEvent BROKEN = new RemoteEvent(0, 0, "");

    private final Socket socket;
    private final OutputStream output;
    private final AtomicLong ids = new AtomicLong();
    private final Map<Long, CompletableFuture<Said>> awaited = new ConcurrentHashMap<>();
    private final Map<Long, BlockingQueue<RemoteEvent>> events = new ConcurrentHashMap<>();

    /** Why the connection ended, or null while it stands. */
    private volatile Exception end;

    // ---- Connections ----

    /** Connects to a server, whose address is told as HOST:PORT. */
    public static Jsp connect(String address) throws IOException, InterruptedException {
        int colon = address.lastIndexOf(':');
        if (colon < 0) {
            throw new IllegalArgumentException("no HOST:PORT: " + address);
        }
        Socket socket = new Socket();
        try {
            int port = Integer.parseInt(address.substring(colon + 1));
            socket.connect(new InetSocketAddress(address.substring(0, colon), port), CONNECT_MILLISECONDS);
            socket.setTcpNoDelay(true);
            Jsp jsp = new Jsp(socket);
            jsp.new Request("hello").with("version", 2).call();
            return jsp;
        } catch (IOException | InterruptedException | RuntimeException failure) {
            socket.close();
            throw failure;
        }
    }

    private Jsp(Socket socket) throws IOException {
        this.socket = socket;
        this.output = socket.getOutputStream();
        DataInputStream input = new DataInputStream(new BufferedInputStream(socket.getInputStream()));
        Thread reader = new Thread(() -> readAll(input), "jsp reader");
        reader.setDaemon(true);
        reader.start();
    }

    /** Ends the session. What waits throws IOException, as what is asked later. */
    @Override
    public void close() throws IOException {
        socket.close();
    }

    // ---- Classes and spaces ----

    /** The kinds of fields. */
    public enum Kind {
        INT,
        TEXT,
        BOOL
    }

    /** Declares a class without parent, for all spaces. To declare the same again changes nothing. */
    public void declare(String name, Map<String, Kind> fields) throws IOException, InterruptedException {
        declare(name, null, fields);
    }

    /** Declares a class below another, whose fields it has beside its own. */
    public void declare(String name, String parent, Map<String, Kind> fields) throws IOException, InterruptedException {
        Map<String, Json> kinds = new LinkedHashMap<>();
        fields.forEach((field, kind) -> kinds.put(field, new Json.Text(kind.name().toLowerCase(Locale.ROOT))));
        Request declaration = new Request("declare").with("class", name).with("fields", new Json.Keyed(kinds));
        (parent == null ? declaration : declaration.with("parent", parent)).call();
    }

    /** The names of the spaces. */
    public List<String> spaces() throws IOException, InterruptedException {
        return new Request("spaces").call().items().stream().map(Json::text).toList();
    }

    /** The space of this name. Whether there is one is seen when it is used. */
    public Space space(String name) {
        return new Space(name);
    }

    /** An entry of this class without values, to which {@link Entry#with} adds them; it is also the template of all. */
    public static Entry entry(String type) {
        return new Entry(type, Map.of());
    }

    /** Begins a transaction. When its lease ends it is aborted, so that it has to last for the waits and the work. */
    public Transaction transaction(long lease) throws IOException, InterruptedException {
        return new Transaction(new Request("txn").with("lease", lease).granted());
    }

    /** A map without leases, to which they are put to be renewed or cancelled together. */
    public LeaseMap leaseMap() {
        return new LeaseMap();
    }

    /**
     * An entry or a template: its class, and values of its fields. A field that is {@link Json.Nothing}, or isn't
     * there, has no value in an entry, and may have any in a template.
     */
    public record Entry(String type, Map<String, Json> fields) {
        public Entry {
            fields = Collections.unmodifiableMap(new LinkedHashMap<>(fields));
        }

        public Entry with(String field, long value) {
            return with(field, new Json.Whole(value));
        }

        public Entry with(String field, String value) {
            return with(field, new Json.Text(value));
        }

        public Entry with(String field, boolean value) {
            return with(field, new Json.Bool(value));
        }

        /** The field's number, or null where it has no value. */
        public Long number(String field) {
            return fields.get(field) instanceof Json.Whole whole ? whole.value() : null;
        }

        /** The field's text, or null where it has no value. */
        public String text(String field) {
            return fields.get(field) instanceof Json.Text text ? text.value() : null;
        }

        /** The field's truth, or null where it has no value. */
        public Boolean bool(String field) {
            return fields.get(field) instanceof Json.Bool bool ? bool.value() : null;
        }

        @Override
        public String toString() {
            return type + fields;
        }

        private Entry with(String field, Json value) {
            Map<String, Json> more = new LinkedHashMap<>(fields);
            more.put(field, value);
            return new Entry(type, more);
        }

        private static Entry of(Json shown) {
            return new Entry(shown.at("class").text(), shown.at("fields").keys());
        }

        private static Entry orNull(Json shown) {
            return shown instanceof Json.Nothing ? null : of(shown);
        }

        private static Json json(Entry template) {
            if (template == null) {
                return new Json.Nothing();
            }
            Json fields = new Json.Keyed(template.fields);
            return new Json.Keyed(Map.of("class", new Json.Text(template.type), "fields", fields));
        }
    }

    /** A space of entries. */
    public final class Space {
        private final String name;

        private Space(String name) {
            this.name = name;
        }

        /** Writes an entry, which is there until its lease ends: {@link #LONGEST} is the most that is granted. */
        public Lease write(Entry entry, Transaction txn, long lease) throws IOException, InterruptedException {
            return request("write", txn).with("entry", Entry.json(entry)).with("lease", lease).granted();
        }

        /** Writes 1 to 64 entries in one step, or none, and answers the lease of each. */
        public List<Lease> write(List<Entry> entries, Transaction txn, long lease)
                throws IOException, InterruptedException {
            Json batch = request("write_all", txn).with("entries", all(entries)).with("lease", lease).call();
            long ms = batch.at("ms").whole();
            return batch.at("leases").items().stream().map(number -> new Lease(number.whole(), ms)).toList();
        }

        /** An entry that matches, or null where there is none within the time. */
        public Entry read(Entry template, Transaction txn, long timeout) throws IOException, InterruptedException {
            return find("read", template, txn, timeout);
        }

        /** As {@link #read}, and the entry is gone. */
        public Entry take(Entry template, Transaction txn, long timeout) throws IOException, InterruptedException {
            return find("take", template, txn, timeout);
        }

        /** As {@link #read}, but it waits only while a transaction holds up an entry that matches. */
        public Entry readIfExists(Entry template, Transaction txn, long timeout)
                throws IOException, InterruptedException {
            return find("read_if", template, txn, timeout);
        }

        /** As {@link #readIfExists}, and the entry is gone. */
        public Entry takeIfExists(Entry template, Transaction txn, long timeout)
                throws IOException, InterruptedException {
            return find("take_if", template, txn, timeout);
        }

        /**
         * Takes the entries that match any of 1 to 8 templates, at most so many (1 to 16), in one step. The list is
         * empty where there is none within the time.
         */
        public List<Entry> take(List<Entry> templates, Transaction txn, long timeout, int most)
                throws IOException, InterruptedException {
            Request request = request("take_many", txn).with("templates", all(templates));
            Json taken = request.with("timeout", timeout).with("most", most).call();
            return taken instanceof Json.Nothing ? List.of() : taken.items().stream().map(Entry::of).toList();
        }

        /** Asks for an event of each matching entry that is written from now on. Each has the handback. */
        public EventRegistration notify(Entry template, Transaction txn, long lease, String handback)
                throws IOException, InterruptedException {
            Request request = request("notify", txn).with("template", Entry.json(template));
            return new EventRegistration(request.with("lease", lease).with("handback", handback).granted());
        }

        /** All entries that match, page by page: all that stay, and each once, while others write and take. */
        public MatchSet contents(Entry template, Transaction txn, long lease) throws IOException, InterruptedException {
            Request request = request("contents", txn).with("template", Entry.json(template));
            return new MatchSet(request.with("lease", lease).granted());
        }

        /** Removes the space's entries, registrations and match sets. Transactions that used it can't be committed. */
        public void reset() throws IOException, InterruptedException {
            new Request("reset").with("space", name).call();
        }

        private Entry find(String op, Entry template, Transaction txn, long timeout)
                throws IOException, InterruptedException {
            Request request = request(op, txn).with("template", Entry.json(template));
            return Entry.orNull(request.with("timeout", timeout).call());
        }

        private Request request(String op, Transaction txn) {
            Request request = new Request(op).with("space", name);
            return txn == null ? request : request.with("txn", txn.lease.number);
        }

        private static Json all(List<Entry> entries) {
            return new Json.Items(entries.stream().map(Entry::json).toList());
        }
    }

    // ---- Leases, transactions, events, match sets ----

    /** What was granted to an entry, a registration, a transaction or a match set. */
    public final class Lease {
        private final long number;
        private final long ms;

        private Lease(long number, long ms) {
            this.number = number;
            this.ms = ms;
        }

        /** The number that names it, for any client. */
        public long number() {
            return number;
        }

        /** How long it lasts from the grant, in milliseconds. It may be less than what was asked. */
        public long ms() {
            return ms;
        }

        /** Asks that it last for so long from now, and answers what is granted. */
        public Lease renew(long asked) throws IOException, InterruptedException {
            return new Request("renew").with("lease", number).with("ms", asked).granted();
        }

        /** Ends it now: removes its entry, registration or match set, or aborts its transaction. */
        public void cancel() throws IOException, InterruptedException {
            new Request("cancel").with("lease", number).call();
        }

        private Jsp connection() {
            return Jsp.this;
        }

        private Json named() {
            return new Json.Whole(number);
        }
    }

    /**
     * Leases of this connection, each with the milliseconds that are asked for it. They are renewed or cancelled by one
     * request, in one step and in the map's order. It is for one thread.
     *
     * <p>Where the server refuses some of them, the others are renewed or cancelled all the same. LeaseMapException
     * then tells each refusal, and those leases are removed from the map, so that it can be used again as it is.
     *
     * <p>A request has at most {@link #MOST_LEASES}. Where there are more IllegalArgumentException is thrown, and
     * nothing is sent. A map without leases asks nothing. Where IOException is thrown all of it may be done, or nothing.
     */
    public final class LeaseMap extends AbstractMap<Lease, Long> {
        private final Map<Lease, Long> asked = new LinkedHashMap<>();

        private LeaseMap() {}

        /** Whether a key is a lease of this connection. To put another one throws IllegalArgumentException. */
        public boolean canContainKey(Object key) {
            return key instanceof Lease lease && lease.connection() == Jsp.this;
        }

        @Override
        public Long put(Lease lease, Long ms) {
            if (!canContainKey(lease)) {
                throw new IllegalArgumentException("no lease of this connection");
            }
            return asked.put(lease, Objects.requireNonNull(ms));
        }

        @Override
        public Set<Map.Entry<Lease, Long>> entrySet() {
            return asked.entrySet();
        }

        /** Asks for each lease that it last for its milliseconds from now, and answers what is granted to each. */
        public Map<Lease, Lease> renewAll() throws LeaseMapException, IOException, InterruptedException {
            List<Json> pairs = new ArrayList<>();
            asked.forEach((lease, ms) -> pairs.add(new Json.Items(List.of(lease.named(), new Json.Whole(ms)))));
            Map<Lease, Lease> renewed = new LinkedHashMap<>();
            Map<Lease, Refused> refusals = new LinkedHashMap<>();
            Iterator<Json> items = request("renew_all", pairs).iterator();
            for (Lease lease : asked.keySet()) {
                Json item = items.next();
                if (item.has("fault")) {
                    refusals.put(lease, Refused.of(item.at("fault").whole()));
                } else {
                    renewed.put(lease, new Lease(lease.number, item.at("ms").whole()));
                }
            }
            removeRefused(refusals, renewed);
            return renewed;
        }

        /** Ends each lease now. Those that are ended stay in the map. */
        public void cancelAll() throws LeaseMapException, IOException, InterruptedException {
            Map<Lease, Refused> refusals = new LinkedHashMap<>();
            Iterator<Json> items =
                    request("cancel_all", asked.keySet().stream().map(Lease::named).toList()).iterator();
            for (Lease lease : asked.keySet()) {
                Json item = items.next();
                if (item.has("fault")) {
                    refusals.put(lease, Refused.of(item.at("fault").whole()));
                }
            }
            removeRefused(refusals, Map.of());
        }

        private List<Json> request(String op, List<Json> leases) throws IOException, InterruptedException {
            if (leases.size() > MOST_LEASES) {
                throw new IllegalArgumentException(leases.size() + " leases, where " + MOST_LEASES + " are the most");
            }
            return leases.isEmpty() ? List.of() : new Request(op).with("leases", new Json.Items(leases)).call().items();
        }

        private void removeRefused(Map<Lease, Refused> refusals, Map<Lease, Lease> renewed) throws LeaseMapException {
            if (!refusals.isEmpty()) {
                asked.keySet().removeAll(refusals.keySet());
                throw new LeaseMapException(refusals, renewed);
            }
        }
    }

    /**
     * A transaction, for a try that commits it as the last thing; where that isn't reached it is aborted at the end.
     * Either all of it is done, in all spaces at once, or nothing. TransactionLost says that nothing is.
     */
    public final class Transaction implements AutoCloseable {
        private final Lease lease;
        private volatile boolean isOver;

        private Transaction(Lease lease) {
            this.lease = lease;
        }

        public Lease lease() {
            return lease;
        }

        public void commit() throws IOException, InterruptedException {
            isOver = true;
            new Request("commit").with("txn", lease.number).call();
        }

        public void abort() throws IOException, InterruptedException {
            isOver = true;
            new Request("abort").with("txn", lease.number).call();
        }

        /** Aborts it, unless its end was asked or has come. */
        @Override
        public void close() throws IOException {
            if (isOver) {
                return;
            }
            try {
                abort();
            } catch (TransactionLost lost) {
                // It has ended already, which is all that is wanted here.
            } catch (InterruptedException interrupted) {
                Thread.currentThread().interrupt(); // the abort is sent, and its answer isn't needed
            }
        }
    }

    /** A matching entry was written. It may be gone already. The numbers of a registration are 1, 2, 3 and so on. */
    public record RemoteEvent(long registration, long sequenceNumber, String handback) {}

    /** A registration for events. They end with its lease, when it is closed, and with the connection. */
    public final class EventRegistration implements AutoCloseable {
        private final Lease lease;
        private final BlockingQueue<RemoteEvent> told;

        private EventRegistration(Lease lease) {
            this.lease = lease;
            this.told = eventsOf(lease.number);
        }

        public Lease lease() {
            return lease;
        }

        /** The next event, or null where none came within so many milliseconds. */
        public RemoteEvent next(long timeout) throws IOException, InterruptedException {
            if (told.isEmpty() && end != null) {
                throw broken();
            }
            RemoteEvent event = told.poll(timeout, TimeUnit.MILLISECONDS);
            if (event == BROKEN) {
                told.add(BROKEN); // for whoever asks next
                throw broken();
            }
            return event;
        }

        /** Cancels it, where its lease hasn't ended yet. */
        @Override
        public void close() throws IOException {
            cancelIfThere(lease);
            events.remove(lease.number);
        }
    }

    /** A way through the entries that match a template, which ends with its lease. It is for one thread. */
    public final class MatchSet implements AutoCloseable {
        private final Lease lease;
        private final Deque<Entry> page = new ArrayDeque<>();
        private boolean isLast;

        private MatchSet(Lease lease) {
            this.lease = lease;
        }

        public Lease lease() {
            return lease;
        }

        /** The next entry, or null behind the last one. */
        public Entry next() throws IOException, InterruptedException {
            while (page.isEmpty() && !isLast) {
                Json more = new Request("next").with("set", lease.number).with("most", PAGE).call();
                more.at("entries").items().forEach(shown -> page.add(Entry.of(shown)));
                isLast = more.at("end").bool();
            }
            return page.poll();
        }

        @Override
        public void close() throws IOException {
            cancelIfThere(lease);
        }
    }

    private void cancelIfThere(Lease lease) throws IOException {
        try {
            lease.cancel();
        } catch (Refused refused) {
            if (refused.number() != Refusal.UNKNOWN_LEASE.number) {
                throw refused;
            }
        } catch (InterruptedException interrupted) {
            Thread.currentThread().interrupt(); // the request is sent, and its answer isn't needed
        }
    }

    // ---- Refusals ----

    /** Why the server refuses: the table of docs/PROTOCOL.md. */
    public enum Refusal {
        BAD_JSON(1, "BadJson", "the payload isn't read as JSON"),
        BAD_REQUEST(2, "BadRequest", "JSON that is no request"),
        ID_IN_USE(3, "IdInUse", "the session has a waiting request of this id"),
        TOO_MANY_WAITING(4, "TooManyWaiting", "the session has 64 waiting requests as this one comes, which would wait"
                + " too"),
        UNKNOWN_SPACE(5, "UnknownSpace", "the space isn't configured"),
        BAD_CLASS(6, "BadClass", "a name or kind that isn't allowed, a field name twice, an inherited field again,"
                + " depth or fields past the limit"),
        DIFFERS(7, "Differs", "the class is declared with another parent or other fields"),
        UNKNOWN_CLASS(8, "UnknownClass", "the class, or the parent of a declaration, isn't declared"),
        BAD_ENTRY(9, "BadEntry", "a field that the class hasn't, a value of another kind, texts past 8,192 bytes"),
        BAD_LEASE(10, "BadLease", "an asked time below 0 other than -1"),
        BAD_TIMEOUT(11, "BadTimeout", "a timeout below 0"),
        UNKNOWN_LEASE(12, "UnknownLease", "no living row, registration, transaction or match set has the number"),
        UNKNOWN_TRANSACTION(13, "UnknownTransaction", "no transaction that is active or voting has the number"),
        NOT_ACTIVE(14, "NotActive", "the transaction is voting"),
        ABORTED(15, "Aborted", "the answer to a commit that was decided as abort"),
        LEFT_ACTIVE(16, "LeftActive", "a blocked request whose transaction left the active state"),
        TOO_MANY(17, "TooMany", "the table of classes, registrations, transactions or match sets is full"),
        CRASH_COUNT(18, "CrashCount", "the space was joined under another crash count"),
        IN_DOUBT(19, "InDoubt", "a vote Prepared of the space awaits its decision"),
        SPACE_FULL(20, "SpaceFull", "the space has 65,536 entries, hidden and taken ones too"),
        TOO_LONG(21, "TooLong", "a frame past the limit of the line's version; closes the session"),
        USED_UP(22, "UsedUp", "the last number is drawn, or the space was reset too often"),
        UNKNOWN(0, "Unknown", "a refusal that this client doesn't know");

        /** Its number and name in the protocol, and what it means. */
        public final int number;

        public final String title;
        public final String words;

        Refusal(int number, String title, String words) {
            this.number = number;
            this.title = title;
            this.words = words;
        }

        static Refusal of(long number) {
            return Arrays.stream(values()).filter(refusal -> refusal.number == number).findFirst().orElse(UNKNOWN);
        }

        /** Whether it says that a transaction can't be committed any more. */
        boolean isOfLostTransaction() {
            return this == UNKNOWN_TRANSACTION || this == ABORTED || this == LEFT_ACTIVE || this == CRASH_COUNT;
        }
    }

    /** The server refused a request, and did nothing of it. It is unchecked, since most are mistakes of a program. */
    public static class Refused extends RuntimeException {
        private static final long serialVersionUID = 1;
        private final long number;

        private Refused(long number) {
            super(number + " " + Refusal.of(number).title + ": " + Refusal.of(number).words);
            this.number = number;
        }

        public long number() {
            return number;
        }

        public Refusal refusal() {
            return Refusal.of(number);
        }

        private static Refused of(long number) {
            return Refusal.of(number).isOfLostTransaction() ? new TransactionLost(number) : new Refused(number);
        }
    }

    /**
     * The transaction has ended, or a space that it used was reset. Unless another client has committed it, nothing of
     * it is done, nor will be: begin anew.
     */
    public static final class TransactionLost extends Refused {
        private static final long serialVersionUID = 1;

        private TransactionLost(long number) {
            super(number);
        }
    }

    /** The server refused some leases of a {@link LeaseMap}. What it was asked for the others is done. */
    public static final class LeaseMapException extends Exception {
        private static final long serialVersionUID = 1;
        private final transient Map<Lease, Refused> exceptionMap;
        private final transient Map<Lease, Lease> renewed;

        private LeaseMapException(Map<Lease, Refused> exceptionMap, Map<Lease, Lease> renewed) {
            super(exceptionMap.size() + " leases were refused, the first with "
                    + exceptionMap.values().iterator().next().getMessage());
            this.exceptionMap = Collections.unmodifiableMap(exceptionMap);
            this.renewed = Collections.unmodifiableMap(renewed);
        }

        /** Each lease that was refused, with why. */
        public Map<Lease, Refused> exceptionMap() {
            return exceptionMap;
        }

        /** Each lease that was renewed, with what is granted to it; of `cancelAll` none. */
        public Map<Lease, Lease> renewed() {
            return renewed;
        }
    }

    // ---- Requests and what the server says ----

    /** What a frame from the server holds. */
    private sealed interface Said {
        record Answer(long id, Json ok) implements Said {}

        /** The id is null where the server could read none. */
        record Fault(Long id, long number) implements Said {}

        record Told(RemoteEvent event) implements Said {}

        static Said of(Json said) {
            if (said.has("event")) {
                Json event = said.at("event");
                return new Told(new RemoteEvent(
                        event.at("lease").whole(), event.at("seq").whole(), event.at("handback").text()));
            }
            if (said.has("fault")) {
                Long id = said.at("id") instanceof Json.Whole whole ? whole.value() : null;
                return new Fault(id, said.at("fault").whole());
            }
            return new Answer(said.at("id").whole(), said.at("ok"));
        }
    }

    /** A request that is put together key by key. */
    private final class Request {
        private final long id = ids.incrementAndGet();
        private final Map<String, Json> keys = new LinkedHashMap<>();

        Request(String op) {
            with("id", id).with("op", op);
        }

        Request with(String key, Json value) {
            keys.put(key, value);
            return this;
        }

        Request with(String key, long value) {
            return with(key, new Json.Whole(value));
        }

        Request with(String key, String value) {
            return with(key, new Json.Text(value));
        }

        /** Sends it, and waits for its answer. */
        Json call() throws IOException, InterruptedException {
            byte[] payload = payload();
            CompletableFuture<Said> answer = new CompletableFuture<>();
            awaited.put(id, answer);
            try {
                // The reader first says that the connection has ended, and then looks who waits: so one sees the other.
                if (end != null) {
                    throw broken();
                }
                send(payload);
                return ok(answer.get());
            } catch (ExecutionException ended) {
                throw broken();
            } finally {
                awaited.remove(id);
            }
        }

        /** Sends it, and waits for the lease that answers it. */
        Lease granted() throws IOException, InterruptedException {
            Json answer = call();
            return new Lease(answer.at("lease").whole(), answer.at("ms").whole());
        }

        private byte[] payload() {
            byte[] payload = utf8(new Json.Keyed(keys).toString());
            if (payload.length > LONGEST_FRAME) {
                throw new IllegalArgumentException(
                        "a request of " + payload.length + " bytes, where " + LONGEST_FRAME + " are the most");
            }
            return payload;
        }

        private static Json ok(Said said) {
            if (said instanceof Said.Fault fault) {
                throw Refused.of(fault.number());
            }
            return ((Said.Answer) said).ok();
        }
    }

    /** The text's bytes. A half of a surrogate pair has none, and isn't to become another character. */
    private static byte[] utf8(String text) {
        try {
            ByteBuffer bytes = StandardCharsets.UTF_8.newEncoder().encode(CharBuffer.wrap(text));
            return Arrays.copyOf(bytes.array(), bytes.limit());
        } catch (CharacterCodingException halved) {
            throw new IllegalArgumentException("a text with half a surrogate pair", halved);
        }
    }

    private void send(byte[] payload) throws IOException {
        byte[] frame = ByteBuffer.allocate(4 + payload.length).putInt(payload.length).put(payload).array();
        synchronized (output) {
            try {
                output.write(frame);
            } catch (IOException failure) {
                socket.close(); // a part of the frame may be sent, and nothing can follow that
                throw failure;
            }
        }
    }

    private IOException broken() {
        return new IOException("the connection is broken: " + end.getMessage(), end);
    }

    /** The reader's thread: hands on what the server says, until the connection ends, and then tells all who wait. */
    private void readAll(DataInputStream input) {
        try (socket) {
            while (true) {
                receive(Said.of(Json.read(new String(frame(input), StandardCharsets.UTF_8))));
            }
        } catch (EOFException closed) {
            tellEnd(new IOException("the server closed it", closed));
        } catch (IOException | RuntimeException why) {
            tellEnd(why);
        }
    }

    private void tellEnd(Exception why) {
        end = why;
        awaited.values().forEach(answer -> answer.completeExceptionally(why));
        events.values().forEach(told -> told.add(BROKEN));
    }

    /** A frame is a length in 4 bytes, the highest first, and a payload. */
    private static byte[] frame(DataInputStream input) throws IOException {
        int length = input.readInt();
        if (length < 0 || length > LONGEST_FRAME) {
            throw new IOException("a frame of " + Integer.toUnsignedString(length) + " bytes");
        }
        byte[] payload = new byte[length];
        input.readFully(payload);
        return payload;
    }

    private void receive(Said said) throws IOException {
        if (said instanceof Said.Told told) {
            eventsOf(told.event().registration()).add(told.event());
        } else if (said instanceof Said.Answer answer) {
            complete(answer.id(), answer);
        } else if (said instanceof Said.Fault fault) {
            if (fault.id() == null) {
                throw new IOException("refused: " + Refused.of(fault.number()).getMessage());
            }
            complete(fault.id(), fault);
        }
    }

    /** Nobody awaits the answer where an interrupt ended the wait. */
    private void complete(long id, Said said) {
        CompletableFuture<Said> answer = awaited.get(id);
        if (answer != null) {
            answer.complete(said);
        }
    }

    /** The events of a registration: the first may come before who registered has read its number. */
    private BlockingQueue<RemoteEvent> eventsOf(long registration) {
        return events.computeIfAbsent(registration, number -> new LinkedBlockingQueue<>());
    }

    // ---- JSON ----

    /** The JSON that the protocol has: its numbers are whole, of 64 bits. `toString` is the JSON text. */
    public sealed interface Json {
        record Nothing() implements Json {
            @Override
            public String toString() {
                return "null";
            }
        }

        record Bool(boolean value) implements Json {
            @Override
            public String toString() {
                return Boolean.toString(value);
            }
        }

        record Whole(long value) implements Json {
            @Override
            public String toString() {
                return Long.toString(value);
            }
        }

        record Text(String value) implements Json {
            public Text {
                Objects.requireNonNull(value);
            }

            @Override
            public String toString() {
                StringBuilder quoted = new StringBuilder("\"");
                for (char one : value.toCharArray()) {
                    if (one == '"' || one == '\\') {
                        quoted.append('\\').append(one);
                    } else if (one < ' ') {
                        quoted.append(String.format("\\u%04x", (int) one));
                    } else {
                        quoted.append(one);
                    }
                }
                return quoted.append('"').toString();
            }
        }

        record Items(List<Json> items) implements Json {
            @Override
            public String toString() {
                return "[" + String.join(",", items.stream().map(Json::toString).toList()) + "]";
            }
        }

        record Keyed(Map<String, Json> keys) implements Json {
            @Override
            public String toString() {
                List<String> pairs = new ArrayList<>();
                keys.forEach((key, value) -> pairs.add(new Text(key) + ":" + value));
                return "{" + String.join(",", pairs) + "}";
            }
        }

        // What a value is, where its place in an answer says so. Another one throws ClassCastException, which no server
        // of this protocol brings about.

        default boolean bool() {
            return ((Bool) this).value();
        }

        default long whole() {
            return ((Whole) this).value();
        }

        default String text() {
            return ((Text) this).value();
        }

        default List<Json> items() {
            return ((Items) this).items();
        }

        default Map<String, Json> keys() {
            return ((Keyed) this).keys();
        }

        default boolean has(String key) {
            return keys().containsKey(key);
        }

        default Json at(String key) {
            return keys().getOrDefault(key, new Nothing());
        }

        /** Reads a text that is one value. */
        static Json read(String text) throws IOException {
            return new JsonReader(text).whole();
        }
    }

    /** Reads JSON from its first character to its last. */
    private static final class JsonReader {
        private static final char END = '\0'; // which JSON has nowhere, outside of its texts and within them

        private final String text;
        private int at;

        JsonReader(String text) {
            this.text = text;
        }

        Json whole() throws IOException {
            Json value = value();
            if (next() != END || at < text.length()) {
                throw wrong();
            }
            return value;
        }

        private Json value() throws IOException {
            return switch (next()) {
                case '{' -> keyed();
                case '[' -> items();
                case '"' -> new Json.Text(quoted());
                case 't' -> word("true", new Json.Bool(true));
                case 'f' -> word("false", new Json.Bool(false));
                case 'n' -> word("null", new Json.Nothing());
                default -> number();
            };
        }

        private Json keyed() throws IOException {
            Map<String, Json> keys = new LinkedHashMap<>();
            skip('{');
            while (next() != '}') {
                if (!keys.isEmpty()) {
                    skip(',');
                }
                next();
                String key = quoted();
                next();
                skip(':');
                keys.put(key, value());
            }
            skip('}');
            return new Json.Keyed(keys);
        }

        private Json items() throws IOException {
            List<Json> items = new ArrayList<>();
            skip('[');
            while (next() != ']') {
                if (!items.isEmpty()) {
                    skip(',');
                }
                items.add(value());
            }
            skip(']');
            return new Json.Items(items);
        }

        private Json word(String word, Json value) throws IOException {
            if (!text.startsWith(word, at)) {
                throw wrong();
            }
            at += word.length();
            return value;
        }

        private Json number() throws IOException {
            int from = at;
            while (here() == '-' || here() >= '0' && here() <= '9') {
                at++;
            }
            try {
                return new Json.Whole(Long.parseLong(text.substring(from, at)));
            } catch (NumberFormatException notWhole) {
                throw wrong();
            }
        }

        private String quoted() throws IOException {
            StringBuilder value = new StringBuilder();
            skip('"');
            while (here() != '"') {
                char one = here();
                at++;
                value.append(one == '\\' ? escaped() : one);
                if (at >= text.length()) {
                    throw wrong();
                }
            }
            skip('"');
            return value.toString();
        }

        /** The character for which an escape stands, behind its backslash. */
        private char escaped() throws IOException {
            char kind = here();
            at++;
            return switch (kind) {
                case '"', '\\', '/' -> kind;
                case 'b' -> '\b';
                case 'f' -> '\f';
                case 'n' -> '\n';
                case 'r' -> '\r';
                case 't' -> '\t';
                case 'u' -> fromHex();
                default -> throw wrong();
            };
        }

        private char fromHex() throws IOException {
            try {
                at += 4;
                return (char) Integer.parseUnsignedInt(text.substring(at - 4, at), 16);
            } catch (NumberFormatException | StringIndexOutOfBoundsException notHex) {
                throw wrong();
            }
        }

        private char here() {
            return at < text.length() ? text.charAt(at) : END;
        }

        /** The next character that is no blank. It stays to be read. */
        private char next() {
            while (here() == ' ' || here() == '\t' || here() == '\n' || here() == '\r') {
                at++;
            }
            return here();
        }

        private void skip(char one) throws IOException {
            if (here() != one) {
                throw wrong();
            }
            at++;
        }

        private IOException wrong() {
            return new IOException("the server said what isn't JSON, at character " + at);
        }
    }
}
