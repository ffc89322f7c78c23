// What the command line for Node says of words that are wrong, and of a Node that is too old; and which commands it has, with their exports.
import assert from "node:assert/strict";
import { readFileSync } from "node:fs";
import { fileURLToPath } from "node:url";
import test from "node:test";
import { exportOf } from "../call.mjs";
import { HELP, hintOf, isTooOld, tooOld } from "../words.mjs";

const commandsIn = (text) => [...new Set(text.split("\n").flatMap((line) => (/^ {2}([a-z-]+) [A-Z]/.exec(line) || []).slice(1)))].sort();

test("versions of Node", () => {
    assert.deepEqual(["12.22.9", "14.21.3", "16.3.0", "16.4.0", "18.20.4", "20.0.0", "101.0.0"].map(isTooOld), [true, true, true, false, false, false, false]);
    assert.match(tooOld("12.22.9"), /Node 12\.22\.9.* 16\.4 /);
});

test("words that are no command", () => {
    const usage = { status: 1, errors: "usage\n" };
    assert.match(hintOf(["modl", "a", "b"], usage), /no command "modl": do you mean "model"\?/);
    assert.match(hintOf(["node_step"], usage), /"node-step"/);
    assert.match(hintOf(["frobnicate"], usage), /the commands are find, prove, synth, .*, explain, emit\./);
    assert.equal(hintOf([Uint8Array.of(255)], usage), "");
});

test("a command with other words", () => {
    assert.equal(hintOf(["model", "a"], { status: 1, errors: "usage\n" }), "katara: model is called so:\n  model TYPE SCRIPT\n");
    assert.equal(hintOf(["picture"], { status: 1, errors: "usage\n" }).split("\n").length, 4, "both ways");
    assert.ok(HELP.endsWith("\n"));
});

test("the commands are those of ./katara, and each has an export", () => {
    const commands = commandsIn(HELP);
    assert.deepEqual(commands, commandsIn(readFileSync(new URL("../../katara", import.meta.url), "utf8")));
    const wasm = { katara_call: "call", katara_find: "find", katara_show: "show", katara_shares: "shares" };
    const of = (name) => commands.filter((command) => exportOf(wasm, command) === name);
    assert.deepEqual(of("find"), ["find", "prove"]);
    assert.deepEqual(of("show"), ["emit", "explain", "picture"]);
    assert.deepEqual(of("shares"), ["node-difference", "node-share", "node-take"]);
    assert.equal(of("call").length, commands.length - 8);
    assert.equal(exportOf({ katara_call: "call" }, "node-take"), "call", "of an older module");
});

test("words of shares", () => {
    const usage = { status: 1, errors: "usage\n" };
    assert.match(hintOf(["node-shar"], usage), /do you mean "node-share"\?/);
    assert.equal(hintOf(["node-difference", "a"], usage), "katara: node-difference is called so:\n  node-difference DESIGN SHARE [KNOWN]\n");
});

test("files that can't be read", () => {
    const unread = (path) => hintOf(["check"], { status: 2, errors: `read fault: ${path}\n` });
    assert.match(unread("no such.type"), /^katara: "no such\.type": there is no such file, seen from \//);
    assert.match(unread(fileURLToPath(new URL(".", import.meta.url))), /it is a folder/);
});

test("all else is said by the program", () => {
    assert.equal(hintOf(["check"], { status: 0, errors: "" }), "");
    assert.equal(hintOf(["check"], { status: 3, errors: "a.type: Syntax 4 at byte 0\n" }), "");
});
