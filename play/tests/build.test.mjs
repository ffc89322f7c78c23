// Whether play/build tells a module of other sources from one that nobody made of any.
import assert from "node:assert/strict";
import { spawnSync } from "node:child_process";
import { createHash } from "node:crypto";
import { copyFileSync, mkdirSync, mkdtempSync, rmSync, symlinkSync, writeFileSync } from "node:fs";
import { tmpdir } from "node:os";
import { join } from "node:path";
import test from "node:test";
import { fileURLToPath } from "node:url";
import { gzipSync } from "node:zlib";

const here = fileURLToPath(new URL("../../", import.meta.url));

test("the module, and what is noted of it", () => {
    const room = mkdtempSync(join(tmpdir(), "katara-"));
    try {
        mkdirSync(join(room, "play"));
        copyFileSync(join(here, "play/build"), join(room, "play/build"));
        for (const it of [".ci", "crates", "crates.txt", "HANDLES"]) symlinkSync(join(here, it), join(room, it));
        const current = () => spawnSync(join(room, "play/build"), ["--current"], { encoding: "utf8" });
        const note = (module) => writeFileSync(join(room, "play/katara.wasm.sources"), `sources of another tree\nkit none\nmodule ${createHash("sha256").update(module).digest("hex")}\n`);
        assert.equal(current().status, 2, "no module");
        writeFileSync(join(room, "play/katara.wasm.gz"), gzipSync("one"));
        note("one");
        assert.equal(current().status, 1, "of other sources");
        note("another");
        const said = current();
        assert.equal(said.status, 2, "another module");
        assert.match(said.stderr, /isn't the one that play\/katara\.wasm\.sources tells of/);
    } finally {
        rmSync(room, { recursive: true });
    }
});
