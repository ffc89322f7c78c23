// A module with a 64-bit memory as one with a 32-bit memory: each address is cut to 32 bits where memory is read or written, and nothing
// else changes. The interface keeps its 64-bit numbers. Every engine takes such a module, and is faster by it: it reserves what 32 bits
// can reach, and compares no address with the end of the memory. It is trusted: no proof covers it.
//     node play/lower.mjs MODULE64 MODULE32
import { readFileSync, writeFileSync } from "node:fs";
import { argv } from "node:process";
import { fileURLToPath } from "node:url";
import { Reader, Writer } from "./binary.mjs";
import { lowerBody } from "./lower_code.mjs";

const CUSTOM = 0;
const TYPES = 1;
const FUNCTIONS = 3;
const TABLES = 4;
const MEMORIES = 5;
const ELEMENTS = 9;
const CODE = 10;
const DATA = 11;

const HAS_MOST = 1;
const IS_64 = 4;
const FUNCTION_TYPE = 0x60;
const I32_CONST = 0x41;
const I64_CONST = 0x42;
const END = 0x0b;
// The stack is at the lowest addresses and grows downwards. So that what is below it, which is cut to the highest addresses of 32 bits, is
// outside of the memory and stops the call, the last 16 MB are never there.
const MOST_PAGES = 65536 - 256;

// how many parameters each type of function has
const parameterCounts = (part) =>
    Array.from({ length: part.number() }, () => {
        if (part.byte() !== FUNCTION_TYPE) throw new Error("a type that is no function's");
        const parameters = part.number();
        part.skip(parameters);
        part.skip(part.number());
        return parameters;
    });

// the place of a segment: a constant number, and the end
function lowerPlace(from, to) {
    if (from.byte() !== I64_CONST) throw new Error("a segment whose place isn't a number of 64 bits");
    const start = from.at;
    from.skipNumber();
    if (from.at - start > 5) throw new Error("a segment whose place has more than 32 bits");
    to.byte(I32_CONST);
    to.copy(from.since(start));
    if (from.byte() !== END) throw new Error("a segment whose place isn't a number alone");
    to.byte(END);
}

// each entry of a section
function each(part, made, change) {
    const count = part.number();
    made.number(count);
    for (let i = 0; i < count; i += 1) change(i);
}

// The sections that change; each writes what it reads from `part` to `made`, and may note in `module` what later ones need.
const LOWERED = {
    [MEMORIES](part, made, module) {
        each(part, made, () => {
            const flags = part.byte();
            module.memory64 = Boolean(flags & IS_64);
            made.byte((flags & ~IS_64) | HAS_MOST);
            made.number(part.number());
            made.number(Math.min(flags & HAS_MOST ? part.number() : MOST_PAGES, MOST_PAGES));
        });
    },
    [TABLES](part, made, module) {
        each(part, made, () => {
            made.byte(part.byte());
            const flags = part.byte();
            module.table64 = Boolean(flags & IS_64);
            made.byte(flags & ~IS_64);
            made.number(part.number());
            if (flags & HAS_MOST) made.number(part.number());
        });
    },
    [ELEMENTS](part, made, module) {
        if (!module.table64) return made.copy(part.rest());
        each(part, made, () => {
            if (part.byte() !== 0) throw new Error("elements of a kind that isn't known");
            made.byte(0);
            lowerPlace(part, made);
            const count = part.number();
            made.number(count);
            for (let i = 0; i < count; i += 1) made.number(part.number());
        });
    },
    [CODE](part, made, module) {
        each(part, made, (i) => {
            const body = part.part(part.number());
            made.sized(lowerBody(body, module.parameters[module.functions[i]], module.table64));
        });
    },
    [DATA](part, made) {
        each(part, made, () => {
            const kind = part.byte();
            if (kind > 1) throw new Error("data of a kind that isn't known");
            made.byte(kind);
            if (kind === 0) lowerPlace(part, made);
            const size = part.number();
            made.sized(part.part(size).rest());
        });
    },
};

export function lower(bytes) {
    const from = new Reader(bytes);
    const to = new Writer(bytes.length * 1.15);
    const module = { parameters: [], functions: [], memory64: false, table64: false };
    to.copy(from.part(8).rest());
    while (!from.done) {
        const id = from.byte();
        const part = from.part(from.number());
        if (id === CUSTOM) continue; // names and the like
        if (id === TYPES) module.parameters = parameterCounts(new Reader(bytes, part.at, part.end));
        if (id === FUNCTIONS) {
            const functions = new Reader(bytes, part.at, part.end);
            module.functions = Array.from({ length: functions.number() }, () => functions.number());
        }
        const made = new Writer(part.rest().length * 1.15);
        if (LOWERED[id]) LOWERED[id](part, made, module);
        else made.copy(part.rest());
        if (id === MEMORIES && !module.memory64) throw new Error("the module's memory has 32 bits already");
        to.byte(id);
        to.sized(made.made());
    }
    return to.made();
}

if (argv[1] === fileURLToPath(import.meta.url)) writeFileSync(argv[3], lower(readFileSync(argv[2])));
