// Two replicas of a shopping cart: each does something, they exchange their states, and both answer alike.
//     node cart.mjs MODULE TYPE DESIGN
import { readFileSync } from "node:fs";
import { load } from "./katara.mjs";

const [module, type, design] = process.argv.slice(2).map((path) => readFileSync(path));
const katara = await load(module);
const here = katara.open(type, design, 1);
const there = katara.open(type, design, 2);
here.do("add", ["milk", 2]);
there.do("add", ["milk", 3]);
there.do("add", ["eggs", 12]);
const packet = there.state();
here.merge(packet);
here.merge(packet); // once more changes nothing
for (const thing of ["milk", "eggs"]) console.log(`count "${thing}" = ${here.ask("count", [thing])}`);
here.free();
there.free();
