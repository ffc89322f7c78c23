// driver.mjs MODULE N M: does what the lines on standard input say with the class of a module that `emit` wrote, which has N operations and
// M queries.
import { readFileSync } from "node:fs";
import { pathToFileURL } from "node:url";
import { inspect } from "node:util";

const module = await import(pathToFileURL(process.argv[2]));
const [operations, queries] = process.argv.slice(3).map(Number);
const Replica = Object.values(module).find((it) => it.prototype?.merge);
const names = Object.getOwnPropertyNames(Replica.prototype);
const methods = names.slice(names.indexOf("clock") + 1, names.indexOf("merge"));
const given = (words) => words.map((it) => (/^-?\d/.test(it) ? BigInt(it) : JSON.parse(it)));
const word = (it) => JSON.stringify(it, (_, value) => (typeof value === "bigint" ? Number(value) : value));
const said = [];
let replicas, shipped, kept, told;
const packets = {};

function taken(it, packet, old) {
    const [whole, now, late] = [it.clone(), Replica.fromState(it.state()), it.clone()];
    const before = it.state();
    now.merge(Replica.fromState(packet.difference(it).state()));
    late.merge(packet.difference(old));
    const changed = it.merge(packet);
    if (whole.state() !== before) throw new Error("a copy isn't one");
    whole.merge(packet);
    if (![whole, now, late].every((other) => other.equals(it))) throw new Error("a difference isn't enough");
    return word(["changed", ...Object.values(changed)]);
}

/** What a call answers, or why it is refused. */
function tried(call) {
    try {
        return call();
    } catch (error) {
        if (error.problem === undefined) throw error;
        return error.problem;
    }
}

function took(it, text) {
    const before = it.share();
    const problem = tried(() => void it.mergePacket(text));
    if (problem && it.share() !== before) throw new Error("a packet that is refused changes something");
    return problem ?? word(it.share());
}

function plain(it) {
    const [bare, whole] = [Replica.fromState(it.state()), it.clone()];
    whole.merge(bare);
    const calls = [() => bare.share(), () => bare.marks(), () => bare.packet(it), () => bare.mergePacket(it.packet(it)), () => whole.share()];
    return calls.map(tried).join(" ");
}

const unhexed = (text) => Buffer.from(text, "hex").toString();

for (const line of readFileSync(0, "utf8").trimEnd().split("\n")) {
    const [step, ...more] = line.split(" ");
    const it = replicas?.[Number(more[0]) - 1];
    if (step === "begin") {
        replicas = Array.from({ length: Number(more[0]) }, (_, n) => new Replica(n + 1));
        shipped = replicas.map((other) => other.clone());
    } else if (step === "do") it[methods[more[1]]](...given(more.slice(2)));
    else if (step === "ask") {
        const answer = it[methods[operations + Number(more[1])]](...given(more.slice(2)));
        said.push(typeof answer === "string" ? JSON.stringify(answer) : String(answer));
    } else if (step === "ship") {
        shipped[Number(more[0]) - 1] = Replica.fromState(it.state());
        packets[more[1]] = it.clone();
    } else if (step === "deliver") said.push(taken(replicas[Number(more[1]) - 1], packets[more[0]], shipped[Number(more[1]) - 1]));
    else if (step === "show") {
        if (inspect(it) !== `${Replica.name} ${it.state().trimEnd()}`) throw new Error("not shown");
        const keys = methods.slice(operations + queries).map((name) => it[name]());
        said.push(it.state().trimEnd(), word(["keys", ...keys]));
    } else if (step === "shares") {
        replicas = Array.from({ length: Number(more[0]) }, (_, n) => new Replica(n + 1));
        [kept, told] = [{ 0: new Replica(32) }, []];
    } else if (step === "share") said.push(word(it.share()));
    else if (step === "keep") kept[more[1]] = Replica.fromShare(it.share());
    else if (step === "packet") said.push(word(told[told.push(it.packet(kept[more[1]])) - 1]));
    else if (step === "take") said.push(took(it, told[more[1]]));
    else if (step === "spoiled") said.push(took(it, unhexed(more[1])));
    else if (step === "restart") {
        replicas[Number(more[0]) - 1] = kept[more[1]].clone();
        said.push(word(replicas[Number(more[0]) - 1].share()));
    } else if (step === "reshare") said.push(tried(() => word(Replica.fromShare(unhexed(more[0])).share())));
    else if (step === "plain") said.push(plain(it));
    else {
        try {
            said.push(Replica.fromState(Buffer.from(more[0], "hex").toString()).state().trimEnd());
        } catch (error) {
            if (error.problem !== "state") throw error;
            said.push("refused");
        }
    }
}
console.log(said.join("\n"));
