// Words with `--out`, and the files of a package.
import assert from "node:assert/strict";
import { mkdtempSync, readFileSync, rmSync, writeFileSync } from "node:fs";
import { tmpdir } from "node:os";
import { join } from "node:path";
import test from "node:test";
import { filesOf, unpack, withoutFolder } from "../packages.mjs";

test("the option is taken out, wherever it is, and the last one counts", () => {
    const made = { words: ["emit", "--package", "t", "d", "--language", "go"], folder: "there" };
    assert.deepEqual(withoutFolder(["emit", "t", "d", "--language", "go", "--out", "there"]), made);
    assert.deepEqual(withoutFolder(["emit", "--out=there", "t", "d", "--language", "go"]), made);
    assert.deepEqual(withoutFolder(["emit", "--out=here", "t", "--out", "there", "d", "--language", "go"]), made);
});

test("other commands, words after `--`, an option without a folder and bytes stay", () => {
    for (const words of [["run", "--out", "there"], ["emit", "t", "--", "--out", "there"], ["emit", "t", "--out"], ["emit", "--out="], []]) {
        assert.deepEqual(withoutFolder(words), { words });
    }
    const words = ["emit", "--out", Uint8Array.of(255)];
    assert.deepEqual(withoutFolder(words), { words });
});

test("files are what comes after their heads", () => {
    assert.deepEqual(filesOf("==> a b.txt <==\nx\n\n  y\n==> src/lib.txt <==\n==> no head\n"), [
        ["a b.txt", "x\n\n  y\n"],
        ["src/lib.txt", "==> no head\n"],
    ]);
    assert.deepEqual(filesOf(""), []);
});

test("files are put into folders, in place of what was there", () => {
    const folder = mkdtempSync(join(tmpdir(), "katara-"));
    try {
        const out = join(folder, "new");
        unpack("==> a.txt <==\nold, and longer\n", out);
        unpack("==> a.txt <==\nnew\n==> src/b.txt <==\nb\n", out);
        assert.equal(readFileSync(join(out, "a.txt"), "utf8"), "new\n");
        assert.equal(readFileSync(join(out, "src", "b.txt"), "utf8"), "b\n");
        writeFileSync(join(folder, "file"), "");
        assert.throws(() => unpack("==> a.txt <==\n", join(folder, "file")));
    } finally {
        rmSync(folder, { recursive: true });
    }
});
