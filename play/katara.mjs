#!/usr/bin/env node
// The program on any machine with Node (from 16.4 on), Deno or Bun: words, output, standard error and status are those of ./katara. On a
// terminal it says more of words that are wrong. (This file and what it imports are in JavaScript that Node 12 reads, so that it can say
// that it is too old.)
//     node play/katara.mjs find examples/gallery/cart/cart.type > cart.design
import { readFileSync, writeSync } from "node:fs";
import process from "node:process";
import { isatty } from "node:tty";
import { bytesOf, call } from "./call.mjs";
import { contentOf } from "./files.mjs";
import { load } from "./module.mjs";
import { unpack, withoutFolder } from "./packages.mjs";
import { HELP, hintOf, isTooOld, tooOld } from "./words.mjs";

const USAGE = 1;
const WRITE_FAULT = 8;
// how a shell calls the status of a program that can't run; the program itself has none above 9
const STOPPED = 70;

// Writes all bytes; whether that went.
function put(file, text) {
    const bytes = bytesOf(text);
    for (let at = 0; at < bytes.length; ) {
        try {
            at += writeSync(file, bytes, at);
        } catch (error) {
            if (error.code !== "EAGAIN") return false; // (a pipe that is full, and doesn't wait)
        }
    }
    return true;
}

// The words of this process. Where one isn't UTF-8 Node's are no longer what was written, and Linux still has that.
function wordsOfProcess() {
    const words = process.argv.slice(2);
    if (!words.some((word) => word.includes("\ufffd"))) return words;
    try {
        const written = readFileSync("/proc/self/cmdline", "latin1").split("\0").slice(0, -1).slice(-words.length);
        return words.map((word, i) => (word.includes("\ufffd") ? Uint8Array.from(Buffer.from(written[i], "latin1")) : word));
    } catch {
        return words;
    }
}

// Puts the files of a package into a folder; the status that this ends with.
function putInto(folder, output) {
    try {
        unpack(Buffer.from(output).toString(), folder);
        return 0;
    } catch (error) {
        put(2, `katara: ${error.message}\n`);
        return WRITE_FAULT;
    }
}

function main(given) {
    const { words, folder } = withoutFolder(given);
    const onTerminal = isatty(2);
    if (isTooOld(process.versions.node)) {
        put(2, tooOld(process.versions.node));
        return STOPPED;
    }
    if (words.length === 1 && ["--help", "-h", "help"].includes(words[0])) return put(1, HELP) ? 0 : WRITE_FAULT;
    if (words.length === 0 && onTerminal) {
        put(2, HELP);
        return USAGE;
    }
    let module;
    try {
        module = load();
    } catch (error) {
        put(2, `katara: the module can't be loaded: ${error.message}\n`);
        return STOPPED;
    }
    if (words[0] === "find" && words.length > 1 && onTerminal) put(2, "looking for a design\n");
    const files = new Map();
    for (const word of words.slice(1)) {
        const content = typeof word === "string" && !files.has(word) ? contentOf(word) : undefined;
        if (content) files.set(word, content);
    }
    let said;
    try {
        said = call(module, words, files);
    } catch (error) {
        put(2, `katara: the module stopped: ${error.message}\n`);
        return STOPPED;
    }
    if (folder !== undefined && said.status === 0) return putInto(folder, said.output);
    if (!put(1, said.output)) {
        put(2, "write fault\n");
        return WRITE_FAULT;
    }
    put(2, onTerminal ? said.errors + hintOf(words, said) : said.errors);
    return said.status;
}

process.exit(main(wordsOfProcess()));
