// Replicas of designs whose proof was accepted, over katara.wasm, which `embed/build` makes. For Node and for browsers.
//
//     const katara = await load(); // of katara.wasm beside this file, or of bytes that are passed
//     const here = katara.open(typeText, designText, 1);
//     here.do("add", ["milk", 2]);
//     there.merge(here.state()); // true: something changed
//     there.ask("count", ["milk"]); // 2n
//     there.keys("count"); // ["milk"]
//
// `doText` and `askText` are for calls that are text already, from a log or a script. Never build such a text from user input:
// `milk" 1000000 #` between quotes is another call.
//
// A replica keeps its memory until `free`, which the end of a `using` block calls too. One that is only dropped is freed when the engine
// collects it, which may be late. docs/EMBEDDING.md says what a caller must keep. In 64-bit memory a pointer is a BigInt.

const [TRUTH, NUMBER, NAME, NONE] = [0n, 1n, 2n, 3n];
const VALUE = 40; // bytes of a value of a call by numbers
const ROOM = 2;
const HANDLE = 3;
const BAD_PROOF = 7;
const GAP = 13;
const encoder = new TextEncoder();
const decoder = new TextDecoder();

export class KataraError extends Error {
    constructor(code, words, condition, line) {
        super(condition === undefined ? words : `${words}: condition ${condition}, line ${line}`);
        this.name = "KataraError";
        Object.assign(this, { code, condition, line });
    }
}

// Operations are missing that come before those of a packet: ask its sender for what lies beyond your own `share()` or `marks()`.
export class Gap extends KataraError {
    constructor(words) {
        super(GAP, words);
        this.name = "Gap";
    }
}

// The keys of a list as the library writes it: names, and whole numbers as BigInts.
const keysOf = (bytes) => (decoder.decode(bytes).match(/"[^"]*"|-?[0-9]+/g) ?? []).map((key) => (key[0] === '"' ? key.slice(1, -1) : BigInt(key)));

// A truth value, a whole number or a name as the bytes that a call by numbers takes.
function passed(view, value) {
    const put = (kind, high, low) => [kind, high, low].forEach((part, i) => view.setBigUint64(8 * i, BigInt.asUintN(64, part), true));
    if (typeof value === "boolean") return put(TRUTH, 0n, BigInt(value));
    if (typeof value === "number" || typeof value === "bigint") {
        const number = BigInt(value);
        return put(BigInt.asIntN(128, number) === number ? NUMBER : NONE, number >> 64n, number);
    }
    if (typeof value !== "string") throw new TypeError("a value is a truth value, a whole number or a name");
    const name = encoder.encode(value);
    put(name.includes(0) ? NONE : NAME, 0n, 0n);
    for (let i = 0; i < 16; i += 1) view.setUint8(24 + i, name[i] ?? 0);
}

// What such bytes say.
function said(view) {
    const kind = view.getBigUint64(0, true);
    if (kind === TRUTH) return view.getBigUint64(16, true) === 1n;
    if (kind === NUMBER) return (view.getBigInt64(8, true) << 64n) + view.getBigUint64(16, true);
    const name = new Uint8Array(view.buffer, view.byteOffset + 24, 16);
    return decoder.decode(name.slice(0, name.includes(0) ? name.indexOf(0) : 16));
}

// The arguments of a call, each place of them: a copy, which nothing else changes, and in which a hole is `undefined`.
const listed = (values) => {
    if (!Array.isArray(values)) throw new TypeError("the arguments of a call are an array");
    return Array.from(values);
};

// The bytes of a text; an `ArrayBuffer`, as `fetch` gives it, is taken too.
const bytesOf = (text) => {
    if (typeof text === "string") return encoder.encode(text);
    if (text instanceof ArrayBuffer) return new Uint8Array(text);
    if (ArrayBuffer.isView(text)) return new Uint8Array(text.buffer, text.byteOffset, text.byteLength);
    throw new TypeError("a text, or the bytes of one, is wanted");
};

// The bytes of the module beside this file.
async function bytesBeside() {
    const url = new URL("./katara.wasm", import.meta.url);
    if (url.protocol === "file:") return (await import("node:fs/promises")).readFile(url);
    const answer = await fetch(url);
    if (!answer.ok) throw new Error(`${url} can't be fetched: ${answer.status}`);
    return answer.arrayBuffer();
}

// The library of a module's bytes.
export async function load(bytes) {
    const { instance } = await WebAssembly.instantiate(bytes ?? (await bytesBeside()), {});
    const wasm = instance.exports;
    // (what is dropped is freed between calls, since the engine has one thread for both)
    const give = (place) => {
        wasm.katara_free(place);
        wasm.give_back(place);
    };
    const dropped = new FinalizationRegistry(give);
    // Memory that grows leaves older views empty, so each is made anew.
    const view = () => new DataView(wasm.memory.buffer);
    const room = (length) => {
        const at = wasm.room(BigInt(length));
        if (at === 0n) throw new KataraError(1, "out of memory");
        return at;
    };

    // Calls with texts, each as its place and length, and then the places of numbers of 64 bits, which are read after the call.
    const call = (before, texts, between, numbers, run) => {
        const held = [];
        const hold = (length) => {
            const at = room(length);
            held.push(at);
            return at;
        };
        try {
            const words = [...before];
            for (const text of texts.map(bytesOf)) {
                const at = hold(Math.max(text.length, 1));
                new Uint8Array(wasm.memory.buffer).set(text, Number(at));
                words.push(at, BigInt(text.length));
            }
            words.push(...between);
            const places = Array.from({ length: numbers }, () => hold(8));
            // (of a number of 32 bits the upper ones aren't written)
            places.forEach((at) => view().setBigUint64(Number(at), 0n, true));
            const code = run(...words, ...places);
            return [code, ...places.map((at) => Number(view().getBigUint64(Number(at), true)))];
        } finally {
            held.forEach((at) => wasm.give_back(at));
        }
    };

    // as long as the longest answer so far, so that an answer is made twice only if none was as long
    let longest = 256;

    // What a call writes to a room, which grows until it fits.
    const answer = (before, texts, run) => {
        for (let length = longest; ; ) {
            const out = room(Math.max(length, 1));
            try {
                const [code, need] = call(before, texts, [out, BigInt(length)], 1, run);
                if (code !== ROOM) {
                    judge(code);
                    return new Uint8Array(wasm.memory.buffer).slice(Number(out), Number(out) + need);
                }
                // (a little more, since states grow)
                length = longest = need + (need >> 3);
            } finally {
                wasm.give_back(out);
            }
        }
    };

    const message = (code) => decoder.decode(answer([code], [], wasm.katara_message));
    const judge = (code) => {
        if (code === GAP) throw new Gap(message(code));
        if (code !== 0) throw new KataraError(code, message(code));
    };

    // What a call tells that says whether anything changed.
    const changes = ([code, changed]) => {
        judge(code);
        return changed !== 0;
    };

    class Replica {
        // where the handle is; 0 once it was given back
        #place = room(8);
        #numbers = new Map();

        // of the texts of a type and a design; or of another replica's type and design, if there is no second text
        constructor(type, design, number) {
            view().setBigUint64(Number(this.#place), 0n, true);
            // of a greater number the lower bits would be another one, so it is passed as 0, which is refused
            const own = number >>> 0 === number ? number : 0;
            try {
                if (design === undefined) {
                    judge(wasm.katara_replica_new(type.#handle, this.#place, own));
                } else {
                    const [code, condition, line] = call([this.#place], [type, design], [own], 2, wasm.katara_open);
                    if (code === BAD_PROOF) throw new KataraError(code, message(code), condition, line);
                    judge(code);
                }
            } catch (error) {
                this.free();
                throw error;
            }
            dropped.register(this, this.#place, this);
        }

        get #handle() {
            if (this.#place === 0n) judge(HANDLE);
            return this.#place;
        }

        // The number of the operation or query of a name.
        #number(kind, name) {
            const key = `${kind} ${name}`;
            if (!this.#numbers.has(key)) {
                const at = room(4);
                try {
                    judge(call([this.#handle], [name], [at], 0, wasm[`katara_${kind}`])[0]);
                    this.#numbers.set(key, view().getUint32(Number(at), true));
                } finally {
                    wasm.give_back(at);
                }
            }
            return this.#numbers.get(key);
        }

        // What is read after a call by number at the place that it writes to, which comes after those of its arguments.
        #numbered(kind, name, given, run, read) {
            const number = this.#number(kind, name);
            const values = listed(given);
            const at = room(VALUE * (values.length + 1));
            const place = (i) => new DataView(wasm.memory.buffer, Number(at) + VALUE * i, VALUE);
            try {
                values.forEach((value, i) => passed(place(i), value));
                const out = at + BigInt(VALUE * values.length);
                judge(run(this.#handle, number, at, BigInt(values.length), out));
                return read(place(values.length));
            } finally {
                wasm.give_back(at);
            }
        }

        // Does the operation of a name with an array of arguments (truth values, whole numbers, names), and tells its time.
        do(name, values = []) {
            return this.#numbered("operation", name, values, wasm.katara_do_numbered, (at) => Number(at.getBigUint64(0, true)));
        }

        // The answer to the query of a name with an array of arguments: a truth value, a BigInt or a name.
        ask(name, values = []) {
            return this.#numbered("query", name, values, wasm.katara_ask_numbered, said);
        }

        // Does an operation that is a text as a script has it, `add "milk" 2`, and tells its time.
        doText(text) {
            const [code, time] = call([this.#handle], [text], [], 1, wasm.katara_do);
            judge(code);
            return time;
        }

        // The text of the answer to a query that is a text as a script has it, `count "milk"`.
        askText(text) {
            return decoder.decode(answer([this.#handle], [text], wasm.katara_ask));
        }

        // The bytes of the state file.
        state() {
            return answer([this.#handle], [], wasm.katara_state);
        }

        // The keys at which the query of a name may find something, ascending: those that one of the tables, sets and sums by key has
        // which it reads, also those of things that were removed.
        keys(query) {
            return keysOf(answer([this.#handle, this.#number("query", query)], [], wasm.katara_keys));
        }

        // Those of these keys at which there is something that a state file lacks: with an earlier one of this replica, the keys at which
        // it has changed since.
        keysBeyond(query, known) {
            return keysOf(answer([this.#handle, this.#number("query", query)], [known], wasm.katara_keys_beyond));
        }

        // Takes in the bytes of a state file, or the state of another replica, and tells whether that changed anything. The replica
        // doesn't know its marks any more.
        merge(state) {
            if (state instanceof Replica) return this.mergeFrom(state);
            return changes(call([this.#handle], [state], [], 1, wasm.katara_merge));
        }

        // Takes in the state of another replica of this library directly, and tells whether that changed anything.
        mergeFrom(other) {
            return other !== this && changes(call([this.#handle, other.#handle], [], [], 1, wasm.katara_merge_from));
        }

        // Becomes the replica that a state file has, with its number and its clock, and without marks.
        restore(state) {
            judge(call([this.#handle], [state], [], 0, wasm.katara_restore)[0]);
        }

        // The bytes of the share file: what a peer has once it merged this replica's packets, and from which it can be set up again.
        share() {
            return answer([this.#handle], [], wasm.katara_share);
        }

        // A packet of what the replica has beyond a share file that the peer is known to have; without one, of all that it has.
        difference(known = "") {
            return answer([this.#handle], [known], wasm.katara_difference);
        }

        // Takes in a packet, late, again or from a third replica, and tells whether that changed anything. It throws a `Gap` if operations
        // are missing that come before those of the packet.
        mergeDifference(packet) {
            return changes(call([this.#handle], [packet], [], 1, wasm.katara_merge_difference));
        }

        // The bytes of its marks: for each replica the time of its latest operation in the state.
        marks() {
            return answer([this.#handle], [], wasm.katara_marks);
        }

        // Becomes the replica that a share file has, with its number, its clock and its marks.
        restoreShare(share) {
            judge(call([this.#handle], [share], [], 0, wasm.katara_restore_share)[0]);
        }

        // Gives the memory back. Each later call throws.
        free() {
            if (this.#place === 0n) return;
            dropped.unregister(this);
            give(this.#place);
            this.#place = 0n;
        }

        // At the end of a `using` block.
        [Symbol.dispose ?? Symbol.for("Symbol.dispose")]() {
            this.free();
        }
    }

    // A type with its design, whose proof is checked once.
    class Type {
        #first;

        constructor(type, design) {
            this.#first = new Replica(bytesOf(type), bytesOf(design), 1);
        }

        // A new replica with a number from 1 to 32.
        replica(number) {
            return new Replica(this.#first, undefined, number);
        }

        // Gives the memory of the type back; its replicas stay.
        free() {
            this.#first.free();
        }

        // At the end of a `using` block.
        [Symbol.dispose ?? Symbol.for("Symbol.dispose")]() {
            this.free();
        }
    }

    return {
        open: (type, design, number) => new Replica(bytesOf(type), bytesOf(design), number),
        type: (type, design) => new Type(type, design),
        run: (type, design, script) => decoder.decode(answer([], [type, design, script], wasm.katara_run)),
        message,
        version: () => decoder.decode(answer([], [], wasm.katara_version)),
        // how many bytes of memory the module has
        size: () => wasm.memory.buffer.byteLength,
    };
}
