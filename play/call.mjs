// Calls of the program in katara.wasm: words and files in; its status, its output, and its lines for standard error out. For Node, Deno,
// Bun and browsers. It is trusted: no proof covers that bytes are passed and taken as they are.

const encoder = new TextEncoder();
const decoder = new TextDecoder();

// A longer file is refused for its length alone, so that no more of it than one byte is passed.
export const FILE_LIMIT = 16_777_216;
// how long the output and the lines for standard error may be at first: a block of the module's heap each
const FIRST_ROOMS = [2 ** 24 - 16, 2 ** 16 - 16];
// what an export answers if one of the rooms is too short: it is above each status
const TOO_SHORT = 10;
// An instance whose memory has grown beyond this is left to the engine, so that one great call doesn't keep its memory for the others.
const KEPT = 2 ** 26;
const OUT_OF_MEMORY = { status: 7, output: new Uint8Array(), errors: "out of memory\n" };

// Each command has an export, as ./katara has four programs.
const EXPORTS = new Map([
    ["find", "katara_find"],
    ["prove", "katara_find"],
    ["picture", "katara_show"],
    ["explain", "katara_show"],
    ["emit", "katara_show"],
    ["node-share", "katara_shares"],
    ["node-difference", "katara_shares"],
    ["node-take", "katara_shares"],
]);
/** The export of a command; a module that is older than the command answers that it has none. */
export const exportOf = (wasm, command) => wasm[EXPORTS.get(command)] || wasm.katara_call;

class NoRoom extends Error {}

export const bytesOf = (text) => (typeof text === "string" ? encoder.encode(text) : text);

// texts with a zero byte between two
function listed(texts) {
    const parts = texts.flatMap((text, i) => (i === 0 ? [bytesOf(text)] : [Uint8Array.of(0), bytesOf(text)]));
    const all = new Uint8Array(parts.reduce((sum, part) => sum + part.length, 0));
    parts.reduce((at, part) => (all.set(part, at), at + part.length), 0);
    return all;
}

// The memory of one instance, and the rooms in it that are taken. Addresses and lengths are BigInts in the module's interface and numbers
// here.
class Memory {
    constructor(wasm) {
        const { memory, room, give_back: giveBack } = wasm;
        Object.assign(this, { wasm, memory, ask: room, giveBack, taken: new Set() });
    }
    get size() {
        return this.memory.buffer.byteLength;
    }
    // a view, which a growth of the memory ends
    view(at, length) {
        return new Uint8Array(this.memory.buffer, at, length);
    }
    room(length) {
        const at = Number(this.ask(BigInt(length)));
        if (at === 0) throw new NoRoom();
        this.taken.add(at);
        return { at, words: [BigInt(at), BigInt(length)] };
    }
    back(at) {
        this.giveBack(BigInt(at));
        this.taken.delete(at);
    }
    // a room with the bytes of all parts, one after the other
    passed(parts) {
        const room = this.room(parts.reduce((sum, part) => sum + part.length, 0));
        parts.reduce((at, part) => (this.view(at, part.length).set(part), at + part.length), room.at);
        return room;
    }
    // a room for a length, which `length` reads
    counter() {
        const { at } = this.room(8);
        return { words: [BigInt(at)], length: () => Number(new DataView(this.memory.buffer).getBigUint64(at, true)) };
    }
}

// Makes a call with words and files, until the rooms for what it answers are great enough: it is made anew if they weren't.
function answered(memory, words, files) {
    const lengths = new BigUint64Array(files.map(([, bytes]) => BigInt(bytes.length)));
    const passed = [
        ...memory.passed([listed(["katara", ...words])]).words,
        ...memory.passed([listed(files.map(([name]) => name))]).words,
        memory.passed([new Uint8Array(lengths.buffer)]).words[0],
        BigInt(files.length),
        ...memory.passed(files.map(([, bytes]) => bytes)).words,
    ];
    const call = exportOf(memory.wasm, words[0]);
    const counters = [memory.counter(), memory.counter()];
    for (let sizes = FIRST_ROOMS; ; ) {
        const rooms = sizes.map((size) => memory.room(size));
        const status = call(...passed, ...rooms.flatMap((room, i) => [...room.words, ...counters[i].words]));
        const needed = counters.map((it) => it.length());
        if (status !== TOO_SHORT) {
            const [output, errors] = rooms.map((room, i) => memory.view(room.at, needed[i]).slice());
            return { status, output, errors: decoder.decode(errors) };
        }
        rooms.forEach(({ at }) => memory.back(at));
        sizes = sizes.map((size, i) => Math.max(size, needed[i]));
    }
}

// For each module an instance whose calls have all ended: the next call takes it, since the engine needs some milliseconds to make one and
// to look for memory of those before it.
const idle = new WeakMap();

function begun(module) {
    const memory = idle.get(module) ?? new Memory(new WebAssembly.Instance(module, {}).exports);
    // (a call that the module or the engine ends doesn't give it back)
    idle.delete(module);
    return memory;
}

function ended(module, memory) {
    memory.taken.forEach((at) => memory.back(at));
    if (memory.size <= KEPT) idle.set(module, memory);
}

/**
 * One call of the program. No call finds anything of an earlier one: all that the program keeps of a call is in rooms that it gives back.
 * @param {WebAssembly.Module} module of katara.wasm
 * @param {(string | Uint8Array)[]} words those after the program's name
 * @param {Map<string, string | Uint8Array>} files by the names that words have
 * @returns {{status: number, output: Uint8Array, errors: string, memory: number}} as a process ends, and how many bytes the memory has
 * @throws {WebAssembly.RuntimeError | RangeError} if the module stops, as where its stack or the engine's is used up
 */
export function call(module, words, files = new Map()) {
    const memory = begun(module);
    // (the same file isn't passed twice, and none that no word names)
    const named = new Set(words.filter((word) => typeof word === "string"));
    const given = [...files].filter(([name]) => named.has(name)).map(([name, text]) => [name, bytesOf(text).subarray(0, FILE_LIMIT + 1)]);
    let said;
    try {
        said = answered(memory, words, given);
    } catch (error) {
        if (!(error instanceof NoRoom)) throw error;
        said = OUT_OF_MEMORY;
    }
    ended(module, memory);
    return { ...said, memory: memory.size };
}
