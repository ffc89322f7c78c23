// Times of the module beside the proved programs: `find` of each type of the gallery, and some calls of the other commands; each the least
// of some runs, in milliseconds of processors, and those of processes by the clock too (`time` of bash tells them). A process of Node each,
// and in one process whose module is compiled already, as in a page.
//     node bench/module.mjs CRATES [RUNS]     CRATES/kat_program/out/kat_program and so on are the programs
import { spawnSync } from "node:child_process";
import { existsSync, readFileSync, readdirSync } from "node:fs";
import process from "node:process";
import { fileURLToPath } from "node:url";
import { gunzipSync } from "node:zlib";
import { call } from "../play/call.mjs";
import { load } from "../play/module.mjs";

const crates = fileURLToPath(new URL(`file://${process.argv[2].startsWith("/") ? "" : `${process.cwd()}/`}${process.argv[2]}`));
const runs = Number(process.argv[3] ?? 3);
process.chdir(fileURLToPath(new URL("..", import.meta.url)));
const CRATE = new Map([["find", "kat_find_program"], ["prove", "kat_find_program"], ["picture", "kat_people"], ["explain", "kat_people"], ["emit", "kat_people"], ["node-share", "kat_share_program"], ["node-difference", "kat_share_program"], ["node-take", "kat_share_program"]]);

const packed = readFileSync("play/katara.wasm.gz");
console.log(`module: ${gunzipSync(packed).length} bytes, ${packed.length} packed`);

// the least of some runs, number by number
function least(spent, count = runs) {
    const all = Array.from({ length: count }, spent);
    return all[0].map((_, i) => Math.min(...all.map((it) => it[i])));
}

// what a process takes: of processors, and by the clock
function ofProcess(words) {
    const { stderr } = spawnSync("bash", ["-c", 'TIMEFORMAT="%3U %3S %3R"; time "$@" >/dev/null 2>&1', "time", ...words], { encoding: "latin1", env: { ...process.env, LC_ALL: "C" } });
    const [user, system, clock] = stderr.trim().split(" ").map((it) => 1000 * Number(it));
    return [user + system, clock];
}

function ofCall(words, files) {
    const before = process.cpuUsage();
    call(module, words, files);
    const { user, system } = process.cpuUsage(before);
    return [(user + system) / 1000];
}

const ended = (program, words) => spawnSync(program, words, { maxBuffer: 2 ** 28 });
const module = load();

// milliseconds of the program, of a process of Node, of a call in this process, and of both processes by the clock; whether they said the same
function measured(words) {
    const crate = CRATE.get(words[0]) ?? "kat_program";
    const program = `${crates}/${crate}/out/${crate}`;
    const files = new Map(words.filter((word) => existsSync(word)).map((word) => [word, readFileSync(word)]));
    const said = [ended(program, words), ended("play/katara.mjs", words)];
    const same = said[0].status === said[1].status && said[0].stdout.equals(said[1].stdout) && said[0].stderr.equals(said[1].stderr);
    const [native, byNode] = [[program, ...words], ["node", "play/katara.mjs", ...words]].map((all) => least(() => ofProcess(all)));
    // (a short one ten times as often: the engine looks for garbage in some of them)
    const [warm] = least(() => ofCall(words, files), native[0] < 50 ? 10 * runs : runs);
    return { times: [native[0], byNode[0], warm], clocks: [native[1], byNode[1]], same, status: said[0].status };
}

const gallery = (name, end) => `examples/gallery/${name}/${name}.${end}`;
const finds = readdirSync("examples/gallery").filter((name) => existsSync(gallery(name, "type"))).map((name) => ["find", gallery(name, "type")]);
const cart = ["type", "design", "script"].map((end) => gallery("cart", end));
const others = [
    ["model", "examples/types/cart.type", "examples/types/cart.script"],
    ["check", cart[0], cart[1]],
    ["run", ...cart],
    ["explain", cart[0], cart[1]],
    ["picture", cart[2], cart[0], cart[1]],
    ["emit", cart[0], cart[1], "--language", "ts"],
    ["check", gallery("todo_list", "type"), gallery("todo_list", "design")],
    ["synth", cart[0], "--size", "4"],
    ["synth", gallery("element_set", "type"), "--size", "9", "--kinds", "table"],
    ["list", gallery("register", "type"), "--size", "9"],
    ["sample", "1"],
];
const shown = (time) => time.toFixed(time < 10 ? 1 : 0).padStart(7);
const ratio = (time, native) => (native ? (time / native).toFixed(1) : "-").padStart(6);
console.log(`an empty script of Node: ${least(() => ofProcess(["node", "-e", "0"])).map(shown).join(" ")} (processors, clock)`);
console.log("program    Node    call  ratios        | program    Node by the clock");
const rows = [...others, ...finds].map((words) => {
    const row = { words: words.join(" "), ...measured(words) };
    const { times, clocks, status, same } = row;
    console.log(`${times.map(shown).join(" ")} ${times.slice(1).map((it) => ratio(it, times[0])).join(" ")} | ${clocks.map(shown).join(" ")} ${ratio(clocks[1], clocks[0])}  ${status} ${row.words}${same ? "" : "  (not the same)"}`);
    return row;
});
const ofFind = rows.filter(({ words }) => words.startsWith("find"));
const sum = (of) => ofFind.reduce((all, row) => all + of(row), 0);
const most = (of) => ofFind.map((row) => [of(row), row.words]).sort(([one], [other]) => other - one).slice(0, 3).map(([times, words]) => `${times.toFixed(2)} (${words})`).join(", ");
console.log(`find of all ${finds.length}: ${sum(({ times }) => times[0]).toFixed(0)} ms by the program; ${sum(({ times }) => times[1]).toFixed(0)} by processes of Node; ${sum(({ times }) => times[2]).toFixed(0)} by calls`);
console.log(`by the clock: ${sum(({ clocks }) => clocks[0]).toFixed(0)} ms by the program; ${sum(({ clocks }) => clocks[1]).toFixed(0)} by processes of Node`);
console.log(`the most times as long by a call: ${most(({ times }) => times[2] / times[0])}`);
console.log(`by a process: ${most(({ times }) => times[1] / times[0])}; by the clock ${most(({ clocks }) => clocks[1] / clocks[0])}`);
console.log(`all ${rows.length} calls: ${rows.every(({ same }) => same) ? "the same status and output" : "something differs"}; peak of this process ${Math.ceil(process.memoryUsage().rss / 2 ** 20)} MB`);
