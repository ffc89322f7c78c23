#!/usr/bin/env node
// Makes the page: one file with the program, the examples and all else in it, which a browser opens from a folder or from any server.
//     node play/make.mjs [FILE [MODULE]]     to play/katara.html, of play/katara.wasm.gz
import { createHash } from "node:crypto";
import { existsSync, readFileSync, readdirSync, writeFileSync } from "node:fs";
import process from "node:process";
import { fileURLToPath } from "node:url";
import { gzipSync } from "node:zlib";
import { call } from "./call.mjs";
import { LANGUAGES } from "./languages.mjs";
import { load } from "./module.mjs";

const here = fileURLToPath(new URL(".", import.meta.url));
const text = (name) => readFileSync(`${here}${name}`, "utf8");
const [file = `${here}katara.html`, module = `${here}katara.wasm.gz`] = process.argv.slice(2);
const FIRST_EXAMPLE = "cart";
const USAGE = 1;

// A module of JavaScript with all that it imports, in one script: each after those that it needs, and each once. (Their names differ: a
// name that two of them have is an error when the script is read.)
function bundle(name, taken = new Set()) {
    if (taken.has(name)) return "";
    taken.add(name);
    const written = text(name);
    const needed = [...written.matchAll(/^import .* from "\.\/(.+)";$/gm)].map(([, it]) => bundle(it, taken));
    return [...needed, written.replace(/^import .*\n/gm, "").replace(/^export /gm, "")].join("");
}

function examples() {
    const gallery = `${here}../examples/gallery/`;
    const read = (name, end) => (existsSync(`${gallery}${name}/${name}.${end}`) ? readFileSync(`${gallery}${name}/${name}.${end}`, "utf8") : undefined);
    const all = readdirSync(gallery).filter((name) => read(name, "type"));
    const names = [FIRST_EXAMPLE, ...all.filter((name) => name !== FIRST_EXAMPLE).sort()];
    return Object.fromEntries(names.map((name) => [name, { type: read(name, "type"), script: read(name, "script") }]));
}

// the languages that its `emit` knows: with one that it doesn't the words are wrong, and else a file isn't there
function languages() {
    const compiled = load(module);
    const isKnown = ({ word }) => call(compiled, ["emit", "type", "design", "--language", word]).status !== USAGE;
    return LANGUAGES.filter(isKnown).map(({ word, name, end }) => `<option value="${word}" data-end="${end}">${name}</option>`).join("");
}

function packed() {
    const bytes = readFileSync(module);
    return (bytes[0] === 0x1f ? bytes : gzipSync(bytes, { level: 9 })).toString("base64");
}

// which program it has: of a release, or of sources and a kit
function made() {
    if (module !== `${here}katara.wasm.gz` || !existsSync(`${here}katara.wasm.sources`)) return "not one of a release";
    const lines = text("katara.wasm.sources").split("\n");
    const told = (word) => lines.find((line) => line.startsWith(`${word} `))?.slice(word.length + 1);
    return told("release") ? `release ${told("release")}` : `made of the sources ${told("sources").slice(0, 12)}, with ${told("kit").split(" ")[0]}`;
}

const hash = (content) => `'sha256-${createHash("sha256").update(content).digest("base64")}'`;

// (in a script of a page neither its end nor the beginning of a comment may be written)
const inPage = (content) => content.replace(/<(?=\/script|!--)/gi, "\\x3c");
const script = inPage(bundle("page.mjs"));
const style = text("page.css");
// nothing is taken from anywhere, and nothing goes anywhere
const policy = [
    "default-src 'none'",
    `script-src ${hash(script)} 'wasm-unsafe-eval'`,
    `style-src ${hash(style)}`,
    "worker-src blob:",
    "img-src data:",
    "base-uri 'none'",
    "form-action 'none'",
].join("; ");
const parts = {
    policy,
    style,
    script,
    made: made(),
    languages: languages(),
    module: packed(),
    worker: inPage(bundle("worker.mjs")),
    examples: JSON.stringify(examples()).replaceAll("<", "\\u003c"),
};
const page = text("page.html").replace(/\{\{(\w+)\}\}/g, (_, part) => parts[part]);
writeFileSync(file, page);
console.log(`${file}, ${Buffer.byteLength(page)} bytes`);
