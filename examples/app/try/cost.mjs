// What a list of 1,000 things costs: bytes and milliseconds of a sync, and of a press of a button in a headless Chromium. Times are the
// processor's, of the server or of Node, as Linux counts them; those in Chromium are by the clock.
//     node try/cost.mjs [--extension katara.so]
// CHROMIUM and PYTHON are the browser and Python.
import { mkdtempSync, readFileSync, rmSync } from "node:fs";
import { tmpdir } from "node:os";
import { join, resolve } from "node:path";
import { performance } from "node:perf_hooks";
import process from "node:process";
import { gzipSync } from "node:zlib";
import { Browser } from "../../../play/browser.mjs";
import { nameOf } from "../page/names.mjs";
import { SharedList } from "../page/shared_list.mjs";
import { Device } from "./device.mjs";
import { Network, seeded, Server } from "./network.mjs";

const THINGS = 1000;
const TURNS = 30;
const extension = process.argv[2] === "--extension" ? ["--extension", resolve(process.argv[3])] : [];
const room = mkdtempSync(join(tmpdir(), "katara-app-"));
const server = new Server(process.env.PYTHON ?? "python3", ["--data", join(room, "lists.db"), ...extension]);
const network = new Network(server, seeded(1));
const number = (it) => it.toLocaleString("en", { maximumFractionDigits: 1 });
// the middle one of some times
const middle = (times) => number([...times].sort((a, b) => a - b)[Math.floor(times.length / 2)]);

// the least processor time of a call
function timed(what) {
    const times = [];
    for (let i = 0; i < 10 * TURNS; i += 1) {
        const { user, system } = process.cpuUsage();
        what(i);
        const spent = process.cpuUsage({ user, system });
        times.push((spent.user + spent.system) / 1000);
    }
    return number(Math.min(...times));
}

// the processor time that the server took so far, in milliseconds: counted in hundredths of a second
function spent() {
    const [, fields] = readFileSync(`/proc/${server.process.pid}/stat`, "utf8").split(") ");
    const [user, system] = fields.split(" ").slice(11, 13);
    return 10 * (Number(user) + Number(system));
}

// what it takes for each of so many calls
async function byServer(calls, call) {
    const before = spent();
    for (let i = 0; i < calls; i += 1) await call(i);
    return number((spent() - before) / calls);
}

// four of five things have a short text, as in lists of people
async function added(list) {
    for (let i = 0; i < THINGS; i += 1) {
        const { name, calls } = await nameOf(i % 5 ? `Thing ${i}` : `The rather long text of thing ${i}`);
        for (const [, at, part] of calls) list.say(at, part);
        list.add(name, BigInt(1 + (i % 3)));
        if (i % 4 === 0) list.tick(name);
    }
}

async function post(path, asked) {
    const got = await fetch(`http://127.0.0.1:${server.port}/${path}`, { method: "POST", body: JSON.stringify(asked) });
    const said = await got.json();
    if (!got.ok) throw new Error(said.error);
    return said;
}

try {
    await server.start();
    const [one, other] = [1, 2].map((it) => ({ key: "k".repeat(24), device: String(it).repeat(24) }));
    for (const it of [one, other]) await post("join", { ...it, make: true });
    const list = new SharedList(1);
    const { mark } = await post("sync", { ...one, mark: "", packet: "" });
    await added(list);
    const text = list.state();
    const sent = await post("sync", { ...one, mark, packet: text });
    console.log(`${number(THINGS)} things: a state of ${number(text.length)} bytes, ${number(gzipSync(text).length)} when packed`);
    const whole = await post("sync", { ...other, mark: "", packet: "" });
    console.log(`a new device gets it whole: ${await byServer(TURNS, () => post("sync", { ...other, mark: "", packet: "" }))} ms of the server`);
    let bytes = 0;
    let marks = [sent.mark, whole.mark];
    const tick = async (i) => {
        const known = SharedList.fromState(list.state());
        list.tick(`Thing_${1 + i}`);
        const packet = list.difference(known).state();
        const up = await post("sync", { ...one, mark: marks[0], packet });
        const down = await post("sync", { ...other, mark: marks[1], packet: "" });
        bytes = JSON.stringify({ ...one, mark: marks[0], packet, given: 2, wait: false }).length + JSON.stringify({ mark: up.mark, packet: "", whole: false, given: 2 }).length;
        marks = [up.mark, down.mark];
    };
    const ticks = await byServer(5 * TURNS, tick);
    console.log(`a tick: ${number(bytes)} bytes of bodies in all; sent by a device, and got by another one: ${ticks} ms of the server`);
    const known = SharedList.fromState(list.state());
    list.tick("Thing_1");
    const packet = list.difference(known).state();
    console.log(`in JavaScript: a state read in ${timed(() => SharedList.fromState(text))} ms, written in ${timed(() => list.state())} ms, a difference in ${timed(() => list.difference(known))} ms, a tick merged in ${timed(() => list.merge(SharedList.fromState(packet)))} ms`);

    const browser = new Browser(process.env.CHROMIUM ?? "chromium");
    const origin = await network.open();
    const devices = [await Device.of(browser), await Device.of(browser)];
    for (const it of devices) {
        await it.open(`${origin}/#${one.key}`);
        await it.ready();
        await it.page.until((count) => document.querySelectorAll("#list li").length === count, THINGS);
    }
    const clicks = await devices[0].page.ask(async (turns) => {
        const times = [];
        for (let i = 0; i < turns; i += 1) {
            const kept = new Promise((done) => addEventListener("kept", done, { once: true }));
            const began = performance.now();
            document.querySelectorAll("#wanted li")[i].querySelector("button:last-child").click();
            await kept;
            times.push(performance.now() - began);
            await new Promise((done) => setTimeout(done, 100));
        }
        return times;
    }, TURNS);
    const seen = [];
    for (let i = 0; i < TURNS; i += 1) {
        const shown = devices[1].page.ask(() => new Promise((done) => addEventListener("changed", () => setTimeout(() => requestAnimationFrame(() => done(true))), { once: true })));
        const began = performance.now();
        await devices[0].press("more", "Thing 1");
        await shown;
        seen.push(performance.now() - began);
    }
    console.log(`in Chromium: a press is kept on the disk in ${middle(clicks)} ms, and shown on another device in ${middle(seen)} ms`);
    await browser.close();
} finally {
    await server.kill();
    network.close();
    rmSync(room, { recursive: true, force: true });
}
