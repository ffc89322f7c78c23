// A function's code in a module with a 64-bit memory, as it is in one with a 32-bit memory: each address, and each size of a part of
// memory, is cut to 32 bits by an instruction before the one that takes it.
import { Writer } from "./binary.mjs";

const LOCAL_GET = 0x20;
const LOCAL_SET = 0x21;
const WRAP = 0xa7; // i32.wrap_i64
const EXTEND_SIGNED = 0xac; // i64.extend_i32_s
const EXTEND_UNSIGNED = 0xad;
const I32 = 0x7f;
const I64 = 0x7e;
const F32 = 0x7d;
const F64 = 0x7c;
const V128 = 0x7b;

const FIRST_LOAD = 0x28;
const FIRST_STORE = 0x36;
const LAST_STORE = 0x3e;
const STORED = [I32, I64, F32, F64, I32, I32, I64, I64, I64]; // what each of these stores takes

// What follows an opcode of one byte, for those that don't touch memory: so many numbers.
const NUMBERS = new Map([
    ...[0x00, 0x01, 0x05, 0x0b, 0x0f, 0x1a, 0x1b, 0xd1].map((it) => [it, 0]), // unreachable, nop, else, end, return, drop, select, ref.is_null
    ...[0x02, 0x03, 0x04, 0x0c, 0x0d].map((it) => [it, 1]), // block, loop, if, br, br_if
    ...[0x10, 0x12, 0x20, 0x21, 0x22, 0x23, 0x24, 0xd0, 0xd2].map((it) => [it, 1]), // calls, locals, globals, references
    ...[0x41, 0x42].map((it) => [it, 1]), // i32.const, i64.const
]);
for (let numeric = 0x45; numeric <= 0xc4; numeric += 1) NUMBERS.set(numeric, 0);
// those that push a value and take none
const PUSHES = new Set([0x20, 0x23, 0x41, 0x42, 0x43, 0x44]);

class Lowering {
    constructor(from, parameters, table64) {
        this.from = from;
        this.table64 = table64;
        this.groups = [];
        this.locals = parameters;
        for (let left = from.number(); left > 0; left -= 1) {
            const count = from.number();
            this.groups.push([count, from.byte()]);
            this.locals += count;
        }
        this.spares = new Map();
        this.to = new Writer((from.end - from.at) * 1.2);
        this.start = from.at; // of the instruction that is read
        this.pushed = -1; // where the last instruction that was written begins, if it only pushes a value
    }
    // a local of this type that the function hasn't, by a name if there are several
    spare(type, name = "") {
        const key = `${type}${name}`;
        if (!this.spares.has(key)) {
            this.spares.set(key, this.locals++);
            this.groups.push([1, type]);
        }
        return this.spares.get(key);
    }
    local(opcode, number) {
        this.to.byte(opcode);
        this.to.number(number);
    }
    copy() {
        this.to.copy(this.from.since(this.start));
    }
    // cuts the address that is under a value of this type
    wrapUnder(type) {
        if (this.pushed >= 0) return this.to.insert(this.pushed, WRAP);
        const value = this.spare(type);
        this.local(LOCAL_SET, value);
        this.to.byte(WRAP);
        this.local(LOCAL_GET, value);
    }
    // A load, or a store of a value of this type. Its alignment and offset are written anew: a 64-bit offset may have more bytes than one
    // of 32 bits may.
    access(stored) {
        const opcode = this.from.since(this.start);
        const align = this.from.number();
        const offset = this.from.number();
        if (stored) this.wrapUnder(stored);
        else this.to.byte(WRAP);
        this.to.copy(opcode);
        this.to.number(align);
        this.to.number(offset);
    }
    // memory.copy (two addresses and a size) and memory.fill (an address, a value and a size)
    bulk(middle) {
        const count = this.spare(I64, "count");
        const second = this.spare(middle, "second");
        this.local(LOCAL_SET, count);
        this.local(LOCAL_SET, second);
        this.to.byte(WRAP);
        this.local(LOCAL_GET, second);
        if (middle === I64) this.to.byte(WRAP);
        this.local(LOCAL_GET, count);
        this.to.byte(WRAP);
        this.copy();
    }
    // the instructions whose first byte is 0xfc
    prefixed() {
        const { from } = this;
        const which = from.number();
        if (which === 10) {
            from.skip(2);
            this.bulk(I64);
        } else if (which === 11) {
            from.skip(1);
            this.bulk(I32);
        } else if (which <= 7 || (which >= 19 && which <= 22)) {
            this.copy(); // conversions, and sums of 128 bits
        } else throw new Error(`an instruction that isn't known: 0xfc ${which}`);
    }
    // the instructions on vectors, whose first byte is 0xfd
    vector() {
        const { from } = this;
        const which = from.number();
        if (which <= 10 || which === 92 || which === 93) this.access();
        else if (which === 11) this.access(V128);
        else if (which >= 84 && which <= 91) {
            this.access(V128); // a lane of a vector, loaded or stored
            this.to.byte(from.byte());
        } else {
            if (which === 12 || which === 13) from.skip(16);
            else if (which >= 21 && which <= 34) from.skip(1);
            this.copy();
        }
    }
    // the other instructions
    plain(opcode) {
        const { from, to } = this;
        const numbers = NUMBERS.get(opcode);
        if (numbers !== undefined) {
            if (numbers) from.skipNumber();
        } else if (opcode === 0x43) from.skip(4); // f32.const
        else if (opcode === 0x44) from.skip(8); // f64.const
        else if (opcode === 0x0e) for (let left = from.number() + 1; left > 0; left -= 1) from.skipNumber(); // br_table
        else if (opcode === 0x1c) from.skip(from.number()); // select with types
        else if (opcode === 0x11 || opcode === 0x13) {
            // call_indirect
            from.skipNumber();
            from.skipNumber();
            if (this.table64) to.byte(WRAP);
        } else throw new Error(`an instruction that isn't known: 0x${opcode.toString(16)}`);
        this.copy();
    }
    instruction() {
        const { from, to } = this;
        this.start = from.at;
        const opcode = from.byte();
        const written = to.at;
        if (opcode >= FIRST_LOAD && opcode < FIRST_STORE) this.access();
        else if (opcode >= FIRST_STORE && opcode <= LAST_STORE) this.access(STORED[opcode - FIRST_STORE]);
        else if (opcode === 0x3f) {
            // memory.size
            from.skip(1);
            this.copy();
            to.byte(EXTEND_UNSIGNED);
        } else if (opcode === 0x40) {
            // memory.grow, which answers -1 if there is no room
            from.skip(1);
            to.byte(WRAP);
            this.copy();
            to.byte(EXTEND_SIGNED);
        } else if (opcode === 0xfc) this.prefixed();
        else if (opcode === 0xfd) this.vector();
        else this.plain(opcode);
        this.pushed = PUSHES.has(opcode) ? written : -1;
    }
    body() {
        while (!this.from.done) this.instruction();
        const body = new Writer(this.to.at + 64);
        body.number(this.groups.length);
        for (const [count, type] of this.groups) {
            body.number(count);
            body.byte(type);
        }
        body.copy(this.to.made());
        return body.made();
    }
}

// `from` reads the body alone, of a function with so many parameters.
export const lowerBody = (from, parameters, table64) => new Lowering(from, parameters, table64).body();
