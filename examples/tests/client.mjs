// The client in JavaScript: what it gives and rejects with, and what is left where things end.
//
//     node client.mjs CASE HOST:PORT
//
// Each case is run against a server of its own, and prints nothing where all is as it should be. `node client.mjs cases`
// lists them, with how many connections each opens.
import assert from "node:assert/strict";
import { readFileSync } from "node:fs";
import { connect as dial, createServer } from "node:net";
import { setTimeout as sleep } from "node:timers/promises";
import {
    ANY,
    Client,
    Disconnected,
    FOREVER,
    LONGEST,
    REFUSALS,
    Refused,
    TransactionLost,
    entry,
} from "../clients/js/jsp.mjs";

const connect = Client.connect;

/** It rejects with this kind of error: of refusals, this very kind, with this number. */
async function rejects(promise, kind, number) {
    await assert.rejects(promise, (error) => {
        assert.equal(error.constructor, kind, error);
        assert.ok(number === undefined || error.number === number, error);
        return true;
    });
}

const CASES = {
    refusals_have_their_names: [1, async (address) => {
        const page = readFileSync(new URL("../../docs/PROTOCOL.md", import.meta.url), "utf8");
        const rows = [...page.matchAll(/^\| (\d+) \| (\w+) \| (.*) \|$/gm)];
        assert.equal(rows.length, 22);
        assert.deepEqual([...REFUSALS], rows.map(([, number, title, words]) => [Number(number), [title, words]]));
        assert.equal(new Refused(5).message, "5 UnknownSpace: the space isn't configured");
        assert.ok(new Refused(99).message.startsWith("99 Unknown: "));
        const jsp = await connect(address);
        await jsp.declare("Job", { k: "int" });
        await rejects(jsp.write("c", entry("Job", { k: 1 }), { lease: LONGEST }), Refused, 5);
        await rejects(jsp.declare("Job", { k: "text" }), Refused, 7);
        await rejects(jsp.read("a", entry("Car")), Refused, 8);
        await rejects(jsp.write("a", entry("Job", { k: "one" }), { lease: LONGEST }), Refused, 9);
        await rejects(jsp.write("a", entry("Job", { k: 1 }), { lease: -2 }), Refused, 10);
        await rejects(jsp.take("a", null, { timeout: -1 }), Refused, 11);
        assert.equal(await jsp.read("a", null), null);
        jsp.close();
    }],

    leases_last_as_granted: [1, async (address) => {
        const jsp = await connect(address);
        await jsp.declare("Job", { k: "int" });
        assert.equal((await jsp.write("a", entry("Job", { k: 1 }), { lease: 10 * LONGEST })).ms, LONGEST);
        assert.equal((await jsp.write("a", entry("Job", { k: 2 }), { lease: ANY })).ms, 60_000);
        const short = await jsp.write("a", entry("Job", { k: 3 }), { lease: LONGEST });
        assert.deepEqual(await jsp.renew(short, 50), { number: short.number, ms: 50 });
        await sleep(200);
        assert.equal(await jsp.read("a", entry("Job", { k: 3 })), null);
        await rejects(jsp.renew(short, 50), Refused, 12);
        const several = await jsp.writeAll("a", [entry("Job", { k: 5 }), entry("Job", { k: 6 })], { lease: ANY });
        const [first, second, unknown] = await jsp.renewAll([...several, short], LONGEST);
        assert.deepEqual([first, second], several.map(({ number }) => ({ number, ms: LONGEST })));
        assert.equal(unknown.number, 12);
        const cancelled = await jsp.cancelAll([...several, short.number]);
        assert.deepEqual([cancelled[0], cancelled[1], cancelled[2].number], [null, null, 12]);
        const kept = await jsp.write("a", entry("Job", { k: 7 }), { lease: ANY });
        await jsp.cancel(kept);
        assert.equal(await jsp.read("a", entry("Job", { k: 7 })), null);
        jsp.close();
    }],

    operations_give_what_they_say: [1, async (address) => {
        const jsp = await connect(address);
        assert.deepEqual(await jsp.spaces(), ["a", "b"]);
        await jsp.declare("Job", { k: "int" });
        await jsp.declare("Rush", { name: "text" }, "Job");
        const entries = [entry("Job", { k: 1 }), entry("Rush", { k: 2, name: "ß\u2028😀" }), entry("Job", { k: 3 })];
        const leases = await jsp.writeAll("a", entries, { lease: ANY });
        assert.deepEqual(leases.map(({ ms }) => ms), [60_000, 60_000, 60_000]);
        const rush = await jsp.read("a", entry("Job", { k: 2 }));
        assert.deepEqual([rush, rush.className], [{ k: 2, name: "ß\u2028😀" }, "Rush"]);
        const jobs = [entry("Job", { k: 3 }), entry("Job", { k: 1 })];
        assert.deepEqual(await jsp.takeMany("a", jobs), [{ k: 1 }, { k: 3 }]);
        assert.deepEqual(await jsp.takeMany("a", jobs), []);
        assert.deepEqual(await jsp.readIf("a", null, { timeout: FOREVER }), rush);
        assert.deepEqual(await jsp.takeIf("a", null, { timeout: FOREVER }), rush);
        assert.equal(await jsp.takeIf("a", null, { timeout: FOREVER }), null);
        await jsp.write("a", entry("Job", { k: 4 }), { lease: ANY });
        await jsp.reset("a");
        assert.equal(await jsp.read("a", null), null);
        jsp.close();
    }],

    each_value_comes_back: [1, async (address) => {
        const jsp = await connect(address);
        await jsp.declare("Value", { k: "int", who: "text", is: "bool" });
        const ints = [0, -1, 2 ** 53 - 1, 1 - 2 ** 53, 2n ** 53n, 2n ** 63n - 1n, -(2n ** 63n)];
        const texts = ["", '{"":"123"}', '"1234567890123456789"', "1234567890123456789", "\\", '\\"', "\u0000\n"];
        for (const [place, k] of ints.entries()) {
            const value = { k, who: texts[place], is: place % 2 === 0 };
            await jsp.write("a", entry("Value", value), { lease: ANY });
            assert.deepEqual(await jsp.take("a", entry("Value", value)), value);
        }
        jsp.close();
    }],

    requests_are_asked_at_once: [2, async (address) => {
        const [jsp, other] = await Promise.all([connect(address), connect(address)]);
        await jsp.declare("Job", { k: "int" });
        const takes = Array.from({ length: 64 }, (_, k) => jsp.take("a", entry("Job", { k }), { timeout: FOREVER }));
        assert.deepEqual(await jsp.spaces(), ["a", "b"]);
        for (let k = 63; k >= 0; k -= 1) {
            await other.write("a", entry("Job", { k }), { lease: ANY });
        }
        assert.deepEqual(await Promise.all(takes), takes.map((_, k) => ({ k })));
        jsp.close();
        other.close();
    }],

    transactions_are_whole: [2, async (address) => {
        const [jsp, other] = await Promise.all([connect(address), connect(address)]);
        await jsp.declare("Job", { k: "int" });
        const given = await jsp.transact(async (txn) => {
            await jsp.write("a", entry("Job", { k: 1 }), { lease: LONGEST, txn });
            assert.equal(await txn.state(), "active");
            assert.equal(await other.read("a", null), null);
            return "given";
        });
        assert.equal(given, "given");
        assert.deepEqual(await other.take("a", null), { k: 1 });
        const breaks = jsp.transact(async (txn) => {
            await jsp.write("a", entry("Job", { k: 2 }), { lease: LONGEST, txn });
            throw new SyntaxError("of the work");
        });
        await rejects(breaks, SyntaxError);
        assert.equal(await other.read("a", null), null);
        const loses = jsp.transact(async (txn) => {
            await jsp.write("a", entry("Job", { k: 3 }), { lease: LONGEST, txn });
            await other.reset("a");
        });
        await rejects(loses, TransactionLost, 15);
        await jsp.write("a", entry("Job", { k: 4 }), { lease: LONGEST });
        const late = jsp.transact(async (txn) => {
            assert.deepEqual(await jsp.take("a", null, { txn }), { k: 4 });
            await sleep(200);
        }, 50);
        await rejects(late, TransactionLost, 13);
        assert.deepEqual(await other.read("a", null), { k: 4 });
        jsp.close();
        other.close();
    }],

    events_come_one_by_one: [2, async (address) => {
        const [jsp, other] = await Promise.all([connect(address), connect(address)]);
        await jsp.declare("Job", { k: "int" });
        const lease = await jsp.notify("a", entry("Job"), { lease: LONGEST, handback: "jobs" });
        assert.equal(lease.ms, LONGEST);
        assert.equal(await jsp.event(0), null);
        const awaited = jsp.event();
        await other.writeAll("a", [1, 2, 3].map((k) => entry("Job", { k })), { lease: LONGEST });
        const events = [await awaited, await jsp.event(60_000), await jsp.event()];
        assert.deepEqual(events, [1, 2, 3].map((seq) => ({ lease: lease.number, seq, handback: "jobs" })));
        await jsp.cancel(lease);
        await other.write("a", entry("Job", { k: 4 }), { lease: LONGEST });
        assert.equal(await jsp.event(100), null);
        jsp.close();
        other.close();
    }],

    a_listing_that_is_left_is_closed: [1, async (address) => {
        const jsp = await connect(address);
        await jsp.declare("Job", { k: "int" });
        const leases = await jsp.writeAll("a", Array.from({ length: 20 }, (_, k) => entry("Job", { k })), { lease: LONGEST });
        const all = [];
        for await (const { k } of jsp.contents("a", entry("Job"), { most: 3 })) {
            all.push(k);
        }
        assert.deepEqual(all, leases.map((_, k) => k));
        const set = leases.at(-1).number + 2;
        for await (const { k } of jsp.contents("a", entry("Job"), { most: 2 })) {
            if (k === 2) {
                await jsp.call("next", { set, most: 1 });
                break;
            }
        }
        await rejects(jsp.call("next", { set, most: 1 }), Refused, 12);
        jsp.close();
    }],

    what_cannot_be_sent_is_not: [1, async (address) => {
        const jsp = await connect(address);
        await jsp.declare("Job", { who: "text" });
        await rejects(jsp.write("a", entry("Job", { who: "x".repeat(1_048_576) }), { lease: LONGEST }), RangeError);
        assert.deepEqual(await jsp.spaces(), ["a", "b"]);
        jsp.close();
        await rejects(jsp.spaces(), Disconnected);
        await rejects(jsp.event(), Disconnected);
    }],

    a_connection_breaks_at_a_write: [2, async (address) => {
        const other = await connect(address);
        await other.declare("Job", { k: "int" });
        const port = Number(address.split(":")[1]);
        // A relay that hands on the answer to hello, and then closes both sides at the next one.
        const relay = createServer((client) => {
            const server = dial({ host: "127.0.0.1", port });
            client.on("error", () => {}).pipe(server.on("error", () => {}));
            server.once("data", (first) => {
                client.write(first);
                server.once("data", () => [client, server].map((side) => side.destroy()));
            });
        }).listen(0, "127.0.0.1");
        await new Promise((resolve) => relay.once("listening", resolve));
        const jsp = await connect(`127.0.0.1:${relay.address().port}`);
        await rejects(jsp.write("a", entry("Job", { k: 1 }), { lease: LONGEST }), Disconnected);
        await rejects(jsp.spaces(), Disconnected);
        assert.deepEqual(await other.take("a", null, { timeout: 60_000 }), { k: 1 });
        relay.close();
        other.close();
    }],
};

const [name, address] = process.argv.slice(2);
if (name === "cases") {
    for (const [title, [connections]] of Object.entries(CASES)) {
        console.log(title, connections);
    }
} else {
    await CASES[name][1](address);
}
