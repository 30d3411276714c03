/**
 * A client of a jsp server, on Node's own modules alone.
 *
 *     const jsp = await Client.connect("127.0.0.1:7070");
 *     await jsp.declare("Job", { k: "int", who: "text" });
 *     await jsp.write("a", entry("Job", { k: 1 }), { lease: 60_000 });
 *     console.log(await jsp.take("a", entry("Job", { k: 1 }))); // { k: 1, who: null }
 *     jsp.close();
 *
 * Times are milliseconds. An int past Number.MAX_SAFE_INTEGER comes as a BigInt, and may be given as one. What the server
 * refuses rejects as Refused, and a broken connection as Disconnected (see Client). docs/PROTOCOL.md says what each
 * operation does.
 */
import { connect } from "node:net";
import { once } from "node:events";

// Times to ask for.
export const FOREVER = 2n ** 63n - 1n; // a timeout that doesn't end
export const LONGEST = 3_600_000; // the longest lease that is granted, an hour; a longer one may be asked for
export const ANY = -1; // a lease as long as the server likes, a minute

const LONGEST_REQUEST = 1_048_576; // bytes of a request, without its length

/** Each refusal's name and meaning, by its number: the table of docs/PROTOCOL.md. */
export const REFUSALS = new Map([
    [1, ["BadJson", "the payload isn't read as JSON"]],
    [2, ["BadRequest", "JSON that is no request"]],
    [3, ["IdInUse", "the session has a waiting request of this id"]],
    [4, ["TooManyWaiting", "the session has 64 waiting requests as this one comes, which would wait too"]],
    [5, ["UnknownSpace", "the space isn't configured"]],
    [
        6,
        [
            "BadClass",
            "a name or kind that isn't allowed, a field name twice, an inherited field again, depth or fields past the" +
                " limit",
        ],
    ],
    [7, ["Differs", "the class is declared with another parent or other fields"]],
    [8, ["UnknownClass", "the class, or the parent of a declaration, isn't declared"]],
    [9, ["BadEntry", "a field that the class hasn't, a value of another kind, texts past 8,192 bytes"]],
    [10, ["BadLease", "an asked time below 0 other than -1"]],
    [11, ["BadTimeout", "a timeout below 0"]],
    [12, ["UnknownLease", "no living row, registration, transaction or match set has the number"]],
    [13, ["UnknownTransaction", "no transaction that is active or voting has the number"]],
    [14, ["NotActive", "the transaction is voting"]],
    [15, ["Aborted", "the answer to a commit that was decided as abort"]],
    [16, ["LeftActive", "a blocked request whose transaction left the active state"]],
    [17, ["TooMany", "the table of classes, registrations, transactions or match sets is full"]],
    [18, ["CrashCount", "the space was joined under another crash count"]],
    [19, ["InDoubt", "a vote Prepared of the space awaits its decision"]],
    [20, ["SpaceFull", "the space has 65,536 entries, hidden and taken ones too"]],
    [21, ["TooLong", "a frame past the limit of the line's version; closes the session"]],
    [22, ["UsedUp", "the last number is drawn, or the space was reset too often"]],
]);

/** The server refused a request, and did nothing of it. `number`, `title` and `words` say why, as in REFUSALS. */
export class Refused extends Error {
    constructor(number) {
        const [title, words] = REFUSALS.get(number) ?? ["Unknown", "a refusal that this client doesn't know"];
        super(`${number} ${title}: ${words}`);
        this.name = new.target.name;
        Object.assign(this, { number, title, words });
    }
}

/**
 * The transaction has ended, or a space that it used was reset. Unless another client has committed it, nothing of it is
 * done, nor will be: begin anew.
 */
export class TransactionLost extends Refused {}

const TRANSACTION_LOST = new Set([13, 15, 16, 18]); // the numbers of these refusals

/** The connection has ended, by either side. */
export class Disconnected extends Error {
    constructor(message = "the server closed the connection") {
        super(message);
        this.name = "Disconnected";
    }
}

/** An entry of the class of this name, or a template: fields that are left out, or null, match every value. */
export const entry = (name, fields = {}) => ({ class: name, fields });

/**
 * A connection, which is a session of its own. Several requests may be on their way at once: what waits holds up nothing
 * else.
 *
 * A Client doesn't connect again. Where its connection breaks, what is awaited rejects as Disconnected, and so does all
 * that is asked later. Then the caller decides, and opens another Client. What it has to know for that:
 *
 * - A request that was answered is done.
 * - One that wasn't may be done or not: an entry may be written, or taken and given to nobody.
 * - What was done under a transaction whose commit wasn't asked comes to nothing, at the latest when its lease ends. So
 *   who takes an entry under a transaction doesn't lose it.
 * - A commit that was asked and not answered may be decided either way, but all of it alike: any one entry that the
 *   transaction wrote or took tells which.
 * - Requests that wait, registrations and match sets end with their connection. Entries and transactions don't, and
 *   classes stay declared.
 *
 * Leases and times are plain numbers or BigInts. Where a lease is granted it is `{ number, ms }`: the number names it, for
 * any client, and it lasts for so long from the grant, which may be less than what was asked.
 */
export class Client {
    #socket;
    #last = 0;
    #asked = new Map();
    #events = [];
    #listeners = [];
    #pieces = [];
    #length = 0;
    #broken = null;

    /** Connects to HOST:PORT. */
    static async connect(address) {
        const at = address.lastIndexOf(":");
        const socket = connect({ host: address.slice(0, at), port: Number(address.slice(at + 1)), noDelay: true });
        await once(socket, "connect");
        const client = new Client(socket);
        await client.call("hello", { version: 2 });
        return client;
    }

    /** A client over a socket that is connected. It is `connect` that says hello. */
    constructor(socket) {
        this.#socket = socket;
        socket.on("data", (piece) => this.#receive(piece));
        socket.on("error", (error) => this.#end(new Disconnected(error.message)));
        socket.on("close", () => this.#end(new Disconnected()));
    }

    /** Ends the session. Nothing can be asked later. */
    close() {
        this.#socket.destroy();
        this.#end(new Disconnected("closed by this client"));
    }

    // Requests and answers.

    /** Sends a request, and gives its answer's `ok`, as docs/PROTOCOL.md has it. RangeError where it is too long. */
    async call(op, keys = {}) {
        if (this.#broken) {
            throw this.#broken;
        }
        const id = ++this.#last;
        const payload = Buffer.from(written({ id, op, ...keys }));
        if (payload.length > LONGEST_REQUEST) {
            throw new RangeError(`a request of ${payload.length} bytes, where ${LONGEST_REQUEST} are the most`);
        }
        const length = Buffer.alloc(4);
        length.writeUInt32BE(payload.length);
        const answered = new Promise((resolve, reject) => this.#asked.set(id, { resolve, reject }));
        this.#socket.write(Buffer.concat([length, payload]));
        return answered;
    }

    /** Takes the frames out of what came, each a length in 4 bytes and an answer or event. */
    #receive(piece) {
        this.#pieces.push(piece);
        this.#length += piece.length;
        while (this.#length >= 4) {
            const bytes = this.#pieces.length === 1 ? this.#pieces[0] : Buffer.concat(this.#pieces);
            this.#pieces = [bytes];
            const end = 4 + bytes.readUInt32BE(0);
            if (bytes.length < end) {
                return;
            }
            this.#pieces = [bytes.subarray(end)];
            this.#length -= end;
            this.#hear(read(bytes.toString("utf8", 4, end)));
        }
    }

    #hear(said) {
        if ("event" in said) {
            const { lease, seq, handback } = said.event;
            this.#tell({ lease, seq, handback });
        } else if (said.id === null) {
            this.#end(refusal(said.fault));
        } else {
            const { resolve, reject } = this.#asked.get(said.id);
            this.#asked.delete(said.id);
            "fault" in said ? reject(refusal(said.fault)) : resolve(said.ok);
        }
    }

    /** Whatever is awaited is rejected, and all that is asked later. */
    #end(why) {
        this.#broken ??= why;
        for (const { reject } of [...this.#asked.values(), ...this.#listeners]) {
            reject(this.#broken);
        }
        this.#asked.clear();
        this.#listeners = [];
    }

    // Classes and spaces.

    /**
     * Declares a class for all spaces: each field's kind is "int", "text" or "bool". To declare what is declared already,
     * with the same parent and fields, changes nothing.
     */
    async declare(name, fields, parent = null) {
        await this.call("declare", { class: name, parent, fields });
    }

    /** The names of the spaces. */
    spaces() {
        return this.call("spaces");
    }

    /** Removes a space's entries, registrations and match sets. Transactions that used it can't be committed. */
    async reset(space) {
        await this.call("reset", { space });
    }

    // Entries. Their leases are for the caller to choose: an entry is gone when its lease ends. `txn` is a Transaction.

    /** Writes an entry, and gives its lease. */
    async write(space, what, { lease, txn = null }) {
        return granted(await this.call("write", { space, entry: what, lease, txn: numberOf(txn) }));
    }

    /** Writes 1 to 64 entries in one step, and gives the lease of each. */
    async writeAll(space, entries, { lease, txn = null }) {
        const { leases, ms } = await this.call("write_all", { space, entries, lease, txn: numberOf(txn) });
        return leases.map((number) => ({ number, ms }));
    }

    /**
     * The fields of an entry that matches, or null where there is none within the time. A template of null matches every
     * entry.
     */
    read(space, template, options) {
        return this.#find("read", space, template, options);
    }

    /** As `read`, and the entry is gone. */
    take(space, template, options) {
        return this.#find("take", space, template, options);
    }

    /** As `read`, but it waits only while a transaction holds up an entry that matches. */
    readIf(space, template, options) {
        return this.#find("read_if", space, template, options);
    }

    /** As `readIf`, and the entry is gone. */
    takeIf(space, template, options) {
        return this.#find("take_if", space, template, options);
    }

    /**
     * Takes the entries that match any of 1 to 8 templates, at most so many (1 to 16), in one step. It gives their fields,
     * none where there is no entry within the time.
     */
    async takeMany(space, templates, { most = 16, timeout = 0, txn = null } = {}) {
        const found = await this.call("take_many", { space, templates, most, timeout, txn: numberOf(txn) });
        return (found ?? []).map(shown);
    }

    /**
     * The fields of each entry that matches, page by page: all that stay, and each once, while others write and take. It
     * rejects as Refused where it goes on after its lease.
     */
    async *contents(space, template, { lease = 60_000, most = 16, txn = null } = {}) {
        const opened = granted(await this.call("contents", { space, template, lease, txn: numberOf(txn) }));
        try {
            for (let page = { end: false }; !page.end; ) {
                page = await this.call("next", { set: opened.number, most });
                yield* page.entries.map(shown);
            }
        } finally {
            // One that can't be closed ends with its lease.
            await this.call("close_set", { set: opened.number }).catch(() => {});
        }
    }

    async #find(op, space, template, { timeout = 0, txn = null } = {}) {
        const found = await this.call(op, { space, template, timeout, txn: numberOf(txn) });
        return found && shown(found);
    }

    // Leases. A number will do for one.

    /** Asks that a lease last for so long from now. Refused with number 12 says that it has ended. */
    async renew(lease, ms) {
        return granted(await this.call("renew", { lease: numberOf(lease), ms }));
    }

    /** Ends a lease now: removes its entry, registration or match set, or aborts its transaction. */
    async cancel(lease) {
        await this.call("cancel", { lease: numberOf(lease) });
    }

    /** Renews 1 to 64 leases in one step, each for so long. It gives the new lease of each, or the Refused in its place. */
    async renewAll(leases, ms) {
        const items = await this.call("renew_all", { leases: leases.map((lease) => [numberOf(lease), ms]) });
        return items.map((item) => ("fault" in item ? refusal(item.fault) : granted(item)));
    }

    /** Cancels 1 to 64 leases in one step. It gives null for each, or the Refused in its place. */
    async cancelAll(leases) {
        const items = await this.call("cancel_all", { leases: leases.map(numberOf) });
        return items.map((item) => ("fault" in item ? refusal(item.fault) : null));
    }

    // Events.

    /**
     * Asks for an event of each matching entry that is written from now on, and gives the registration's lease, whose
     * number its events have. They end with it, and with the connection.
     */
    async notify(space, template, { lease, handback = "", txn = null }) {
        return granted(await this.call("notify", { space, template, lease, handback, txn: numberOf(txn) }));
    }

    /**
     * The next event of any registration, `{ lease, seq, handback }`, or null where none came within so many milliseconds.
     * Where they aren't given it waits without end. An entry that was written may be gone already.
     */
    event(ms) {
        if (this.#events.length > 0) {
            return Promise.resolve(this.#events.shift());
        }
        if (this.#broken) {
            return Promise.reject(this.#broken);
        }
        return new Promise((resolve, reject) => {
            const listener = { resolve, reject };
            this.#listeners.push(listener);
            if (ms !== undefined) {
                const timer = setTimeout(() => {
                    this.#listeners = this.#listeners.filter((other) => other !== listener);
                    resolve(null);
                }, ms);
                listener.resolve = (event) => {
                    clearTimeout(timer);
                    resolve(event);
                };
                listener.reject = (why) => {
                    clearTimeout(timer);
                    reject(why);
                };
            }
        });
    }

    #tell(event) {
        const listener = this.#listeners.shift();
        listener ? listener.resolve(event) : this.#events.push(event);
    }

    // Transactions.

    /** Begins a transaction. When its lease ends it is aborted, so it has to last for the waits and the work. */
    async begin(lease = 60_000) {
        return new Transaction(this, granted(await this.call("txn", { lease })));
    }

    /**
     * Does some work under a transaction, commits it where that ends, and aborts it where it rejects:
     *
     *     await jsp.transact(async (txn) => {
     *         const job = await jsp.take("a", entry("Job"), { txn });
     *         await jsp.write("b", entry("Result", { k: job.k }), { lease: LONGEST, txn });
     *     });
     *
     * Either all of it is done, in all spaces at once, or nothing. TransactionLost says that nothing is.
     */
    async transact(work, lease = 60_000) {
        const txn = await this.begin(lease);
        let done;
        try {
            done = await work(txn);
        } catch (error) {
            // What the work rejected with is told. A transaction that can't be aborted ends with its lease.
            await txn.abort().catch(() => {});
            throw error;
        }
        await txn.commit();
        return done;
    }
}

/** What is begun by `begin`, and ended by its commit, an abort or its lease. */
export class Transaction {
    #client;

    constructor(client, lease) {
        this.#client = client;
        this.lease = lease;
        this.number = lease.number;
    }

    /** Commits it, and waits until that is decided. TransactionLost says that it was aborted. */
    async commit() {
        await this.#client.call("commit", { txn: this.number });
    }

    /** Undoes what was done under it. TransactionLost says that it has ended already. */
    async abort() {
        await this.#client.call("abort", { txn: this.number });
    }

    /** Either "active", or "voting" once its commit was asked. */
    state() {
        return this.#client.call("state", { txn: this.number });
    }
}

/** What was granted. */
const granted = ({ lease, ms }) => ({ number: lease, ms });

/** The fields of an entry. `className` names its own class, which may be below the template's, and isn't listed. */
function shown(found) {
    return Object.defineProperty(found.fields, "className", { value: found.class });
}

/** The error for the refusal of this number. */
const refusal = (number) => new (TRANSACTION_LOST.has(number) ? TransactionLost : Refused)(number);

/** The number of a lease or a transaction. A number, or null, is given as it is. */
const numberOf = (what) => what?.number ?? what;

// JSON of integers that no Number holds: they go through it as {"":"123"}, which no request or answer has otherwise, since
// every name has a letter.

function written(request) {
    const marked = JSON.stringify(request, (_, value) => (typeof value === "bigint" ? { "": `${value}` } : value));
    return marked.replace(/\{"":"(-?\d+)"\}/g, "$1");
}

function read(text) {
    const marked = text.replace(/"(?:[^"\\]|\\.)*"|-?\d{16,}/g, (token) => (token[0] === '"' ? token : `{"":"${token}"}`));
    return JSON.parse(marked, (_, value) => (typeof value?.[""] === "string" ? integer(BigInt(value[""])) : value));
}

const integer = (value) => (Number.isSafeInteger(Number(value)) ? Number(value) : value);
