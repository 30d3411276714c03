// A pool of workers: tasks are written into one space, workers take them, and write what came of them into another.
//
//     node pool.mjs HOST:PORT
//
// It opens five connections. A task and its result change hands under one transaction: a worker that broke off between the
// two would leave the task where it was, for another to take. A worker that finds no task, or whose transaction ends before
// its work does, begins anew, so that the pool outlives any time without work. It leaves nothing behind.
import { Client, FOREVER, LONGEST, TransactionLost, entry } from "./jsp.mjs";

const WORKERS = 4;
const TASKS = 40;
const WAIT = 20_000; // how long a worker waits for a task, in milliseconds
const LEASE = 60_000; // how long its transaction may last, which is longer than the wait and the work together

/** Takes a task and writes the square of its number, or neither. It is false where the task was the last one. */
const workOnce = (jsp, name) =>
    jsp.transact(async (txn) => {
        const task = await jsp.take("a", entry("Task"), { timeout: WAIT, txn });
        if (task === null) {
            return true;
        }
        if (task.k === null) {
            return false;
        }
        const result = entry("Result", { k: task.k, square: task.k ** 2, worker: name });
        await jsp.write("b", result, { lease: LONGEST, txn });
        return true;
    }, LEASE);

/** Does tasks until it takes one that has no number. */
async function work(address, name) {
    const jsp = await Client.connect(address);
    for (let goesOn = true; goesOn; ) {
        try {
            goesOn = await workOnce(jsp, name);
        } catch (error) {
            if (!(error instanceof TransactionLost)) {
                throw error;
            }
            // Nothing of it was done, and if it had a task, that is there again.
        }
    }
    jsp.close();
}

const address = process.argv[2];
const jsp = await Client.connect(address);
await jsp.declare("Task", { k: "int" });
await jsp.declare("Result", { k: "int", square: "int", worker: "text" });
const workers = Array.from({ length: WORKERS }, (_, n) => work(address, `worker ${n}`));
// A task that nobody takes within the hour of its lease is gone: whoever wants it longer renews that.
const numbers = Array.from({ length: TASKS }, (_, n) => n + 1);
for (const k of numbers) {
    await jsp.write("a", entry("Task", { k }), { lease: LONGEST });
}
const results = await Promise.all(numbers.map((k) => jsp.take("b", entry("Result", { k }), { timeout: FOREVER })));
for (const _ of workers) {
    await jsp.write("a", entry("Task"), { lease: LONGEST });
}
await Promise.all(workers);
console.log("squares:", ...results.map((result) => result.square));
console.log("tasks left:", await jsp.read("a", entry("Task")), "results left:", await jsp.read("b", entry("Result")));
jsp.close();
