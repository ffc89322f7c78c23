// Calls that the JavaScript binding must refuse, or take as they are meant, whatever the caller's objects do meanwhile.
//     node misuse.mjs MODULE TYPE DESIGN VERSION
import { readFileSync } from "node:fs";
import { Gap, KataraError, load } from "./katara.mjs";

const [module, type, design] = process.argv.slice(2, 5).map((path) => readFileSync(path));
const katara = await load(module);
const must = (so, what) => {
    if (!so) throw new Error(what);
};
const refused = (call, error) => {
    try {
        call();
    } catch (thrown) {
        return must(thrown instanceof error, `another error: ${thrown}`);
    }
    throw new Error(`a call that must be refused was done: ${call}`);
};

const one = katara.open(type, design, 1);
one.do("add", ["milk", 2]);
one.do("add", ["eggs", 3n]);
must(one.ask("count", ["milk"]) === 2n, "a call takes what arrays have");
// a hole isn't what an earlier call passed there
one.do("add", ["milk", 5]);
refused(() => one.do("add", ["milk", ,]), TypeError); // eslint-disable-line no-sparse-arrays
const holes = ["milk", 1];
delete holes[1];
refused(() => one.do("add", holes), TypeError);
refused(() => one.do("add", [, 5]), TypeError); // eslint-disable-line no-sparse-arrays
must(one.ask("count", ["milk"]) === 7n, "a refused call changed something");
// a single name isn't a list, nor is what looks like one
for (const single of ["milk", "m", { length: 1, 0: "milk" }, new Uint8Array(1), null, 5]) refused(() => one.ask("count", single), TypeError);
for (const none of [null, undefined, {}, Symbol("a")]) refused(() => one.ask("count", [none]), TypeError);
refused(() => one.do("add", ["milk", 1.5]), RangeError);
// what people typed is one argument, and no call of its own
refused(() => one.do("add", ['milk" 1000000 #', 1]), KataraError);
refused(() => one.do('add "milk" 2'), KataraError);
must(one.ask("count", ["milk"]) === 7n, "a refused call changed something");
// a type that is opened once, what a merge says, keys, and packets
const cart = katara.type(type, design);
const other = cart.replica(2);
refused(() => other.mergeDifference(one.difference(one.share())), Gap);
must(other.mergeDifference(one.difference()) && !other.mergeDifference(one.difference()), "a packet says whether it changed anything");
must(`${other.keys("count")}` === "eggs,milk" && other.keysBeyond("count", one.state()).length === 0, "keys are names");
must(!other.merge(one) && !other.merge(other), "a merge says whether it changed anything");
refused(() => other.share(), KataraError);
cart[Symbol.dispose]();
refused(() => cart.replica(3), KataraError);
cart.free();
other.free();
must(katara.version() === process.argv[5], "the version is that of the header");
one.free();
one.free();
refused(() => one.ask("count", ["milk"]), KataraError);
// the end of a `using` block frees, and so does the engine, some time after a replica was dropped
const two = katara.open(type, design, 2);
for (let i = 0; i < 400; i += 1) two.do("add", [`thing_${i}`, 1]);
const large = two.state();
two[Symbol.dispose]();
refused(() => two.state(), KataraError);
if (globalThis.gc) {
    const round = async () => {
        for (let i = 0; i < 40; i += 1) katara.open(type, design, 3).merge(large);
        for (let i = 0; i < 3; i += 1) {
            globalThis.gc();
            await new Promise((go) => setTimeout(go, 1));
        }
    };
    await round();
    await round();
    const size = katara.size();
    for (let i = 0; i < 6; i += 1) await round();
    must(katara.size() === size, `what is dropped keeps its memory: ${size} bytes grow to ${katara.size()}`);
}
for (let code = 0; code < 16; code += 1) must(katara.message(code).length > 3, "a message has words");
