// Makes the calls of examples/cases by the module, and compares status, output and what goes to standard error with what must be.
//     node play/check.mjs [--times] [--module FILE] [PART OF A NAME]
// All are made in this process, except those of an outside that fails (`full` and `deaf`), which are processes of katara.mjs. The times are
// of processors; with --times each call's is told when it ends.
import { spawnSync } from "node:child_process";
import { closeSync, existsSync, openSync, readFileSync } from "node:fs";
import process from "node:process";
import { fileURLToPath } from "node:url";
import { call } from "./call.mjs";
import { contentOf } from "./files.mjs";
import { load } from "./module.mjs";

const words = process.argv.slice(2);
const tellsTimes = words[0] === "--times" && Boolean(words.shift());
const given = words[0] === "--module" ? words.splice(0, 2)[1] : undefined;
const part = words[0] ?? "";
const module = load(given);
const program = fileURLToPath(new URL("katara.mjs", import.meta.url));
process.chdir(fileURLToPath(new URL("../examples", import.meta.url)));

// a word of the file, in which a byte may be written as \0 and its octal number
function wordOf(text) {
    const bytes = Buffer.from(text.replace(/\\0([0-7]{1,3})/g, (_, code) => String.fromCharCode(parseInt(code, 8))), "latin1");
    return Buffer.from(bytes.toString()).equals(bytes) ? bytes.toString() : new Uint8Array(bytes);
}

function cases() {
    const lines = readFileSync("cases", "utf8").split("\n");
    const told = lines.filter((line) => line && !line.startsWith("#")).map((line) => line.trim().split(/\s+/));
    return told.map(([name, status, ...rest]) => ({ name, status: Number(status), words: rest.map(wordOf) }));
}

// what a stored file has; nothing where it isn't there
const stored = (path) => (existsSync(path) ? readFileSync(path) : Buffer.alloc(0));

function called({ words }) {
    const files = new Map(words.map((word) => [word, typeof word === "string" ? contentOf(word) : undefined]).filter(([, content]) => content));
    try {
        const { status, output, errors, memory } = call(module, words, files);
        return { status, output: Buffer.from(output), errors: Buffer.from(errors), memory };
    } catch (error) {
        return { status: 70, output: Buffer.alloc(0), errors: Buffer.from(`the module stopped: ${error.message}\n`), memory: 0 };
    }
}

// a process whose output, or whose standard error, goes to a device that is full
function failing({ name, words }) {
    const full = openSync("/dev/full", "w");
    const stdio = name.startsWith("full") ? ["ignore", full, "pipe"] : ["ignore", "pipe", full];
    const ended = spawnSync(process.execPath, [program, ...words], { stdio, maxBuffer: 2 ** 28 });
    closeSync(full);
    return { status: ended.status, output: ended.stdout ?? Buffer.alloc(0), errors: ended.stderr ?? Buffer.alloc(0), memory: 0 };
}

const isFailing = ({ name }) => /^(full|deaf)/.test(name);
const seconds = (time) => `${(time / 1000).toFixed(2)} s`;
// milliseconds of processors, of this process
function spent() {
    const { user, system } = process.cpuUsage();
    return (user + system) / 1000;
}
const times = [];
let failed = 0;
let memory = 0;
for (const it of cases().filter(({ name }) => name.includes(part))) {
    if (isFailing(it) && !existsSync("/dev/full")) continue;
    const began = spent();
    const said = isFailing(it) ? failing(it) : called(it);
    times.push([spent() - began, it.name]);
    if (tellsTimes) console.log(`${it.name}: ${seconds(times.at(-1)[0])}`);
    memory = Math.max(memory, said.memory);
    const wanted = { output: stored(`${it.name}.output`), errors: stored(`${it.name}.errors`) };
    if (said.status === it.status && said.output.equals(wanted.output) && said.errors.equals(wanted.errors)) continue;
    failed += 1;
    console.log(`${it.name}: ended with ${said.status} where ${it.status} is wanted, and printed\n${said.output}${said.errors}where this is wanted:\n${wanted.output}${wanted.errors}`);
}
const slowest = times.sort(([one], [other]) => other - one).slice(0, 5);
console.log(`play/check.mjs: ${times.length - failed} passed, ${failed} failed; ${seconds(times.reduce((sum, [time]) => sum + time, 0))}, most in ${slowest.map(([time, name]) => `${name} (${seconds(time)})`).join(", ")}; at most ${Math.ceil(memory / 2 ** 20)} MB`);
process.exitCode = failed || !times.length ? 1 : 0;
