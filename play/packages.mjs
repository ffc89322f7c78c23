// `emit` with `--out FOLDER`, as ./katara has it: the program writes all files of a package as one text, each after a line `==> NAME <==`, and
// they are put into the folder. (In JavaScript that Node 12 reads, as katara.mjs is.)
import { mkdirSync, writeFileSync } from "node:fs";
import { dirname, join } from "node:path";

/**
 * The words of a call without that option, and its folder if there is one: of several the last. After `--` there are no options.
 * @param {(string | Uint8Array)[]} words those after the program's name
 * @returns {{words: (string | Uint8Array)[], folder?: string}} those for the program, which is to write a package if there is a folder
 */
export function withoutFolder(words) {
    if (words[0] !== "emit") return { words };
    const end = words.includes("--") ? words.indexOf("--") : words.length;
    const left = [];
    let folder = "";
    for (let at = 1; at < words.length; at += 1) {
        const word = words[at];
        if (at < end && word === "--out" && typeof words[at + 1] === "string") {
            at += 1;
            folder = words[at];
        } else if (at < end && typeof word === "string" && /^--out=./s.test(word)) {
            folder = word.slice("--out=".length);
        } else {
            left.push(word);
        }
    }
    return folder === "" ? { words: ["emit", ...left] } : { words: ["emit", "--package", ...left], folder };
}

/** The files of a package, as names and texts. */
export function filesOf(text) {
    const files = [];
    for (const line of text.split(/(?<=\n)/)) {
        const head = /^==> (.*) <==\n$/.exec(line);
        if (head) files.push([head[1], ""]);
        else if (files.length > 0) files[files.length - 1][1] += line;
    }
    return files;
}

/**
 * Puts the files of a package into a folder, which is made if it isn't there, in place of files of these names.
 * @throws {Error} if one can't be written
 */
export function unpack(text, folder) {
    for (const [name, content] of filesOf(text)) {
        const path = join(folder, name);
        mkdirSync(dirname(path), { recursive: true });
        writeFileSync(path, content);
    }
}
