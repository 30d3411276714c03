// A transfer between two spaces under a transaction, while another client looks on.
//
//     node transfer.mjs HOST:PORT
//
// It opens two connections. The other client sees the amounts before the transfer, or those after it, and is told of the
// entries that the commit brings: never of what was written in between. Its accounts bear the name of this run, so that it
// can be run again and beside others; a minute later they are gone.
import { randomUUID } from "node:crypto";
import { Client, Refused, entry } from "./jsp.mjs";

const LEASE = 60_000;

class NotEnough extends Error {}

/** Moves an amount from the account in a to the one in b, or leaves both as they are. */
const transfer = (jsp, run, amount) =>
    jsp.transact(async (txn) => {
        const payer = await jsp.take("a", entry("Account", { run }), { txn });
        const payee = await jsp.take("b", entry("Account", { run }), { txn });
        await jsp.write("a", entry("Account", { run, amount: payer.amount - amount }), { lease: LEASE, txn });
        await jsp.write("b", entry("Account", { run, amount: payee.amount + amount }), { lease: LEASE, txn });
        if (amount > payer.amount) {
            throw new NotEnough("not enough");
        }
    });

async function shown(jsp, run) {
    const [a, b] = await Promise.all(["a", "b"].map((space) => jsp.read(space, entry("Account", { run }))));
    return `a ${a.amount} b ${b.amount}`;
}

const [jsp, other] = await Promise.all([Client.connect(process.argv[2]), Client.connect(process.argv[2])]);
await jsp.declare("Account", { run: "text", amount: "int" });
const run = randomUUID();
await jsp.write("a", entry("Account", { run, amount: 70 }), { lease: LEASE });
await jsp.write("b", entry("Account", { run, amount: 30 }), { lease: LEASE });
console.log("before:", await shown(other, run));
await other.notify("b", entry("Account", { run }), { lease: LEASE, handback: "b has changed" });

await transfer(jsp, run, 50);
console.log("after 50 more:", await shown(other, run));
console.log("told:", (await other.event(60_000)).handback);

try {
    await transfer(jsp, run, 50);
} catch (error) {
    if (!(error instanceof NotEnough)) {
        throw error;
    }
    console.log(`${error.message}:`, await shown(other, run));
}
console.log("told of what was aborted:", await other.event(200));

try {
    await jsp.write("c", entry("Account", { run, amount: 1 }), { lease: LEASE });
} catch (error) {
    if (!(error instanceof Refused)) {
        throw error;
    }
    console.log("a space that isn't there:", error.message);
}
jsp.close();
other.close();
