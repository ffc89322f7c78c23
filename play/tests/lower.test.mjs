// Whether a module answers alike with addresses of 64 and of 32 bits (lower.mjs). The module is compiled from memory.c by the clang of the
// kit that KIT names; without it, or in a Node without 64-bit memories, nothing is tried, and a line says so.
import assert from "node:assert/strict";
import test from "node:test";
import { fileURLToPath } from "node:url";
import { lower } from "../lower.mjs";
import { compiled, fresh, isLacking } from "./compiled.mjs";

const source = fileURLToPath(new URL("memory.c", import.meta.url));

// what it answers for some seeds
const answers = (bytes) => Array.from({ length: 40 }, (_, seed) => fresh(bytes).run(BigInt(seed * 7919), 3000n));

test("addresses of 32 bits", { skip: isLacking }, (context) => {
    const wide = compiled(source);
    if (!WebAssembly.validate(wide)) return context.skip("this Node has no 64-bit memories");
    const narrow = lower(wide);
    const wanted = answers(wide);
    assert.deepEqual(answers(narrow), wanted);
    assert.deepEqual(answers(lower(compiled(source, "-DTABLE"))), wanted);
    assert.deepEqual(lower(wide), narrow, "the same bytes each time");
    assert.throws(() => lower(narrow), /32 bits already/);
    // a stack that is used up stops the call, whatever its addresses are cut to
    assert.equal(fresh(narrow).overflow(1000n), fresh(wide).overflow(1000n));
    assert.throws(() => fresh(narrow).overflow(100000n), WebAssembly.RuntimeError);
});
