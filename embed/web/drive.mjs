// Makes the calls that lines of standard input ask for, and answers each with a line, for fuzz.py, which has the form of both.
//     node drive.mjs MODULE
import { readFileSync } from "node:fs";
import { createInterface } from "node:readline";
import { KataraError, load } from "./katara.mjs";

const katara = await load(readFileSync(process.argv[2]));
const slots = new Map();
const decoder = new TextDecoder("utf-8", { fatal: true });
const bytesOf = (word) => Uint8Array.from(Buffer.from(word === "-" ? "" : word, "hex"));
const hex = (bytes) => Buffer.from(bytes).toString("hex") || "-";
const valueOf = (word) => {
    const rest = word.slice(1);
    if (word[0] === "t") return rest === "1";
    // as a number if it is one of those that are whole numbers exactly
    if (word[0] === "n") return Number.isSafeInteger(Number(rest)) ? Number(rest) : BigInt(rest);
    return decoder.decode(bytesOf(rest));
};
const said = (value) => (typeof value === "boolean" ? `t${Number(value)}` : typeof value === "bigint" ? `n${value}` : `s${hex(value)}`);

const listed = (keys) => keys.map(said).join(",") || "-";
const text = (word) => decoder.decode(bytesOf(word));

const calls = {
    open(slot, number, type, design) {
        // (replicas with an even number by a type that is opened first)
        if (number % 2) return void slots.set(slot, katara.open(bytesOf(type), bytesOf(design), Number(number)));
        const opened = katara.type(bytesOf(type), bytesOf(design));
        try {
            slots.set(slot, opened.replica(Number(number)));
        } finally {
            opened.free();
        }
    },
    free: (slot) => slots.get(slot)?.free(),
    do: (slot, name, ...values) => slots.get(slot).do(decoder.decode(bytesOf(name)), values.map(valueOf)),
    ask: (slot, name, ...values) => said(slots.get(slot).ask(decoder.decode(bytesOf(name)), values.map(valueOf))),
    do_text: (slot, text) => slots.get(slot).doText(bytesOf(text)),
    ask_text: (slot, text) => hex(slots.get(slot).askText(bytesOf(text))),
    state: (slot) => hex(slots.get(slot).state()),
    keys: (slot, query) => listed(slots.get(slot).keys(text(query))),
    keys_beyond: (slot, query, known) => listed(slots.get(slot).keysBeyond(text(query), bytesOf(known))),
    merge: (slot, state) => Number(slots.get(slot).merge(bytesOf(state))),
    merge_from: (slot, other) => Number(slots.get(slot).merge(slots.get(other))),
    share: (slot) => hex(slots.get(slot).share()),
    difference: (slot, known) => hex(slots.get(slot).difference(bytesOf(known))),
    merge_difference: (slot, packet) => Number(slots.get(slot).mergeDifference(bytesOf(packet))),
    marks: (slot) => hex(slots.get(slot).marks()),
    restore_share: (slot, share) => slots.get(slot).restoreShare(bytesOf(share)),
    restore: (slot, state) => slots.get(slot).restore(bytesOf(state)),
    run: (...texts) => hex(katara.run(...texts.map(bytesOf))),
    // how many bytes the module's memory has
    memory: () => katara.size(),
};

for await (const line of createInterface({ input: process.stdin })) {
    const [word, ...words] = line.split(" ");
    try {
        const answer = calls[word](...words);
        console.log(answer === undefined ? "ok" : `ok ${answer}`);
    } catch (error) {
        if (!(error instanceof KataraError)) throw error;
        console.log(`error ${error.code} ${error.condition ?? "-"} ${error.line ?? "-"} ${hex(error.message)}`);
    }
}
