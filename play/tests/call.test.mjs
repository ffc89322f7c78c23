// Whether calls that take an instance of earlier ones answer as calls of a new instance, among them those whose rooms are too short at
// first, that are refused, and whose memory isn't kept.
import assert from "node:assert/strict";
import { existsSync, readFileSync } from "node:fs";
import test from "node:test";
import { fileURLToPath } from "node:url";
import { gunzipSync } from "node:zlib";
import { call } from "../call.mjs";

const at = (path) => fileURLToPath(new URL(`../../${path}`, import.meta.url));
const packed = at("play/katara.wasm.gz");
const gallery = (name) => ["type", "design", "script"].map((end) => `examples/gallery/${name}/${name}.${end}`);

test("a call finds nothing of an earlier one", { skip: !existsSync(packed) }, () => {
    const bytes = gunzipSync(readFileSync(packed));
    const [cart, todo] = ["cart", "todo_list"].map(gallery);
    const calls = [
        ["model", cart[0], cart[2]],
        ["run", ...todo],
        ["find", cart[0]],
        ["check", cart[0], todo[1]],
        ["list", cart[0], "--size", "5"],
        ["model", cart[0], "long"],
        ["no", "such", "command"],
        ["explain", ...todo.slice(0, 2)],
        ["emit", ...cart.slice(0, 2), "--language", "rust"],
        ["picture", cart[2], ...cart.slice(0, 2)],
    ];
    const files = new Map([...cart, ...todo].map((path) => [path, readFileSync(at(path))]));
    // a line of standard error, and with `long` a file past the limit
    files.set("long", new Uint8Array(2 ** 24 + 1).fill(10));
    const said = (module, words) => {
        const { status, output, errors } = call(module, words, files);
        return { status, output: Buffer.from(output).toString("latin1"), errors };
    };
    const kept = new WebAssembly.Module(bytes);
    const fresh = calls.map((words) => said(new WebAssembly.Module(bytes), words));
    for (const step of [1, 3, 7]) {
        calls.forEach((_, i) => {
            const k = (i * step) % calls.length;
            assert.deepEqual(said(kept, calls[k]), fresh[k], calls[k].join(" "));
        });
    }
});

test("an instance is kept unless its memory is great", { skip: !existsSync(packed) }, () => {
    const module = new WebAssembly.Module(gunzipSync(readFileSync(packed)));
    const memoryOf = (size) => call(module, ["model", "type", "script"], new Map([["type", new Uint8Array(size).fill(10)], ["script", "replicas 1\n"]])).memory;
    const first = memoryOf(1);
    assert.equal(memoryOf(1), first, "and its rooms are given back");
    assert.ok(memoryOf(2 ** 24) > 2 ** 26);
    assert.equal(memoryOf(1), first);
});
