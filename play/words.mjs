// What the command line for Node says in words of its own: the help, and to people on a terminal what was wrong with their words. A script
// reads what the program says, and no more.
import { statSync } from "node:fs";
import process from "node:process";

export const HELP = `Usage: node play/katara.mjs COMMAND WORDS

  find TYPE [--effort N] [--designs N]
  prove TYPE DESIGN [--effort N]
  synth TYPE [--size N] [--effort N] [--designs N] [--kinds KIND,KIND..]
  audit TYPE REPORT [--size N] [--effort N] [--designs N] [--kinds KIND,KIND..]
  list TYPE [--size N] [--designs N] [--kinds KIND,KIND..]
  check TYPE DESIGN
  migrate TYPE DESIGN
  run TYPE DESIGN SCRIPT
  deltas TYPE DESIGN SCRIPT
  model TYPE SCRIPT
  converge DESIGN SCRIPT
  node-new DESIGN --replica R
  node-step DESIGN STATE ACTIONS [PACKET ..]
  node-ask TYPE DESIGN STATE QUESTIONS
  node-share DESIGN --replica R
  node-difference DESIGN SHARE [KNOWN]
  node-take DESIGN SHARE ACTIONS [PACKET ..]
  sample N [--lines N]
  picture SCRIPT [TYPE DESIGN] [--text]
  picture --report REPORT H [--text]
  explain TYPE DESIGN [--markdown]
  emit TYPE DESIGN --language LANGUAGE [--package]
  emit TYPE DESIGN --language LANGUAGE --out FOLDER

docs/reference/commands.md says what each reads, writes and ends with; ./katara --help has an example of each.
`;
const COMMANDS = [...new Set(HELP.split("\n").flatMap((line) => (/^ {2}([a-z-]+)/.exec(line) || []).slice(1)))];
const callsOf = (command) => HELP.split("\n").filter((line) => line.startsWith(`  ${command} `));

// The module has vectors, which Node can't run before this version.
const FIRST_NODE = [16, 4];

export function isTooOld(version) {
    const [major, minor] = version.split(".").map(Number);
    return major < FIRST_NODE[0] || (major === FIRST_NODE[0] && minor < FIRST_NODE[1]);
}
export const tooOld = (version) => `katara: this is Node ${version}; it runs with Node from ${FIRST_NODE.join(".")} on, and with Deno or Bun\n`;

// how many letters are to be changed, put in or left out to make one word of another
function distance(one, other) {
    let row = Array.from({ length: other.length + 1 }, (_, i) => i);
    for (let i = 0; i < one.length; i += 1) {
        const next = [i + 1];
        for (let j = 0; j < other.length; j += 1) next.push(Math.min(row[j] + (one[i] === other[j] ? 0 : 1), row[j + 1] + 1, next[j] + 1));
        row = next;
    }
    return row[other.length];
}

function unknown(command) {
    const near = COMMANDS.filter((it) => distance(it, command) <= 2).sort((it, other) => distance(it, command) - distance(other, command))[0];
    const known = near ? `do you mean "${near}"?` : `the commands are ${COMMANDS.join(", ")}.`;
    return `katara: there is no command "${command}": ${known} \`--help\` says how each is called\n`;
}

// why a file couldn't be read, as far as it can be told
function unread(path) {
    try {
        return statSync(path).isDirectory() ? "it is a folder" : "it isn't open to you, or it is none that can be read";
    } catch (error) {
        return error.code === "ENOENT" ? `there is no such file, seen from ${process.cwd()}` : error.message;
    }
}

/** What helps after a call that ended so, in lines; nothing if the program's own words say all. */
export function hintOf([command], { status, errors }) {
    if (status === 1) {
        if (typeof command !== "string") return "";
        if (!COMMANDS.includes(command)) return unknown(command);
        return `katara: ${command} is called so:\n${callsOf(command).join("\n")}\n`;
    }
    const [, path] = (status === 2 && /^read fault: (.*)\n$/.exec(errors)) || [];
    return path === undefined ? "" : `katara: "${path}": ${unread(path)}\n`;
}
