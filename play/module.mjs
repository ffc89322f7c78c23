// The module as it is in the repository, compiled by Node, Deno or Bun.
import { readFileSync } from "node:fs";
import { setFlagsFromString } from "node:v8";
import { gunzipSync } from "node:zlib";

// A function is compiled when it is first called: a call needs few of them (engines of today do so by themselves). And it is compiled once
// more, with optimizations, only after it ran some ten times as long as V8 would wait: short calls take a fifth less of the processors,
// and long ones no more. Engines other than V8 have no such flags.
const FLAGS = ["--wasm-lazy-compilation", "--wasm-lazy-validation", "--wasm-tiering-budget=20000000"];

export function load(path = new URL("katara.wasm.gz", import.meta.url)) {
    for (const flag of FLAGS) {
        try {
            setFlagsFromString(flag);
        } catch {
            // compiled at once
        }
    }
    const bytes = readFileSync(path);
    return new WebAssembly.Module(bytes[0] === 0x1f ? gunzipSync(bytes) : bytes);
}
