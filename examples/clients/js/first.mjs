// The first session of README.md.
//
//     node first.mjs HOST:PORT
import { Client, entry } from "./jsp.mjs";

const jsp = await Client.connect(process.argv[2]);
await jsp.declare("Job", { k: "int", who: "text" });
await jsp.write("a", entry("Job", { k: 1 }), { lease: 1000 });
console.log(await jsp.take("a", entry("Job", { k: 1 })));
jsp.close();
