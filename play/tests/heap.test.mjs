// The module's heap (embed/heap_web.c) alone: blocks don't overlap, those given back are used again, and a large memory grows in few steps.
// Without the kit, or in a Node without 64-bit memories, nothing is tried, and a line says so.
import assert from "node:assert/strict";
import test from "node:test";
import { fileURLToPath } from "node:url";
import { lower } from "../lower.mjs";
import { compiled, fresh, isLacking } from "./compiled.mjs";

const source = fileURLToPath(new URL("../../embed/heap_web.c", import.meta.url));
const LENGTHS = [0, 1, 16, 17, 100, 5000, 70_000];

// so many rooms, of the lengths in turn
const rooms = (heap, count) => Array.from({ length: count }, (_, i) => [Number(heap.room(BigInt(LENGTHS[i % LENGTHS.length]))), LENGTHS[i % LENGTHS.length]]);

function blocksAreApart(heap) {
    const taken = rooms(heap, 700).sort(([one], [other]) => one - other);
    for (const [i, [at, length]] of taken.entries()) {
        assert.ok(at > 0 && at % 16 === 0 && at + length <= (taken[i + 1]?.[0] ?? heap.memory.buffer.byteLength));
    }
    const had = heap.memory.buffer.byteLength;
    for (const [at] of taken) heap.give_back(BigInt(at));
    assert.deepEqual(new Set(rooms(heap, 700).map(([at]) => at)), new Set(taken.map(([at]) => at)));
    assert.equal(heap.memory.buffer.byteLength, had);
}

function growsInFewSteps(heap) {
    const first = heap.memory.buffer.byteLength;
    const sizes = new Set();
    let last = 0;
    for (let i = 0; i < 1 << 20; i++) {
        last = Number(heap.room(40n));
        sizes.add(heap.memory.buffer.byteLength);
    }
    assert.ok(last - first > 6e7 && heap.memory.buffer.byteLength < 1.2 * last);
    assert.ok(sizes.size < 60, `${sizes.size} sizes of the memory`);
}

test("the module's heap", { skip: isLacking }, (context) => {
    const wide = compiled(source);
    if (!WebAssembly.validate(wide)) return context.skip("this Node has no 64-bit memories");
    for (const bytes of [wide, lower(wide)]) {
        blocksAreApart(fresh(bytes));
        growsInFewSteps(fresh(bytes));
        assert.equal(fresh(bytes).room(1n << 41n), 0n);
    }
});
