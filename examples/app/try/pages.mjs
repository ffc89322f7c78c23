// Opens the page in a headless Chromium as several devices, which edit one list while they are offline and online, the server is killed
// and calls are doubled, lost and late. At the end all show what `run` answers on the same operations. Then what else may happen to a
// device, each by itself. What is pressed is drawn by the seed; what has arrived by then isn't.
//     node try/pages.mjs [--seed N] [--rounds N] [--shots FOLDER] [--extension katara.so] [--program katara]
// CHROMIUM and PYTHON are the browser and Python.
import { execFileSync } from "node:child_process";
import { copyFileSync, mkdirSync, mkdtempSync, rmSync, writeFileSync } from "node:fs";
import { tmpdir } from "node:os";
import { join, resolve } from "node:path";
import process from "node:process";
import { fileURLToPath } from "node:url";
import { Browser, pause } from "../../../play/browser.mjs";
import { nameOf, textOf } from "../page/names.mjs";
import { ask, Device } from "./device.mjs";
import { Network, seeded, Server } from "./network.mjs";

const here = (name) => fileURLToPath(new URL(name, import.meta.url));
const options = { seed: "1", rounds: "10", shots: undefined, extension: undefined, program: here("../../../katara") };
for (const words = process.argv.slice(2); words.length; ) options[words.shift().slice(2)] = words.shift();

const random = seeded(Number(options.seed));
const below = (most) => Math.floor(most * random());
const one = (of) => of[below(of.length)];

const THINGS = ["Milk", "Bread", "Apples", "Brötchen", "Olive oil", "Salt", "Coffee (whole beans)", "Washing-up liquid without scent"];
const TITLES = ["Weekend", "Party on Saturday", "Für die Küche, und mehr", "Shop"];

const room = mkdtempSync(join(tmpdir(), "katara-app-"));
const data = join(room, "lists.db");
const server = new Server(process.env.PYTHON ?? "python3", ["--data", data, ...(options.extension ? ["--extension", resolve(options.extension)] : [])]);
const network = new Network(server, seeded(Number(options.seed) + 1));
// without this feature Chromium heeds the quota that a test sets
const browser = new Browser(process.env.CHROMIUM ?? "chromium", "--disable-features=StaticStorageQuota");
const began = Date.now();
const failures = [];
let looked = 0;
function look(name, holds, seen = "") {
    looked += 1;
    if (process.env.TIMES) console.log(`${((Date.now() - began) / 1000).toFixed(1)} s: ${name}`);
    if (!holds) failures.push(`${name}: ${typeof seen === "string" ? seen : JSON.stringify(seen)}`);
}
const same = (name, one, other) => look(name, JSON.stringify(one) === JSON.stringify(other), `${JSON.stringify(one)} and ${JSON.stringify(other)}`);
let origin;
let link;
const devices = [];
const pages = [];
let kills = 0;

async function shot(name, device) {
    if (!options.shots) return;
    mkdirSync(options.shots, { recursive: true });
    writeFileSync(join(options.shots, `${name}.png`), await device.page.picture());
}

async function open(device, url, ...before) {
    pages.push(await device.open(url, ...before));
    return device;
}

// ---- the list is made, and its link is given to others

async function beginning() {
    await server.start();
    origin = await network.open();
    const first = await open(await Device.of(browser), origin);
    look("a page without a list shows those that are here", await first.page.until(() => document.getElementById("home")?.checkVisibility()));
    await first.page.ask(() => document.getElementById("new").click());
    look("a list is made", await first.ready());
    link = await first.page.ask(() => location.href);
    look("its link has a key after #", /^http:\/\/localhost:\d+\/#[A-Za-z0-9_-]{24}$/.test(link), link);
    const others = [await Device.of(browser), await Device.of(browser)];
    for (const it of others) {
        await open(it, link);
        look("another device gets in by the link", await it.ready());
    }
    devices.push(first, ...others);
    for (const it of devices) look("the page is kept for when there is no network", await it.page.until(async () => (await navigator.serviceWorker.ready).active.state === "activated" && navigator.serviceWorker.controller));
}

// ---- everybody edits, and nothing works as it should

async function act(device) {
    const what = below(10);
    if (what < 3) return device.want(one(THINGS));
    if (what < 4) return device.retitle(one(TITLES));
    if (what < 5) return device.removeTicked();
    return device.press(one(["more", "less", "tick"]), one(THINGS));
}

async function killing(isOver) {
    while (!isOver()) {
        await pause(200 + below(600));
        await server.kill();
        kills += 1;
        await pause(below(300));
        await server.start();
    }
}

async function storm() {
    network.wild = true;
    let over = false;
    const killed = killing(() => over);
    for (let round = 0; round < Number(options.rounds); round += 1) {
        for (const it of devices) await it.offline(random() < 0.5);
        const plans = devices.map((device) => [device, 5 + below(6)]);
        await Promise.all(
            plans.map(async ([device, changes]) => {
                for (let i = 0; i < changes; i += 1) {
                    await act(device);
                    await pause(below(150));
                }
            }),
        );
    }
    over = true;
    await killed;
    network.wild = false;
    for (const it of devices) await it.offline(false);
}

// ---- what all must show

// A script of the same operations, each at its own time. An operation's time is one past all that its replica had seen, so each time
// has one. Before those of a time are done, their replicas get a packet of the time before.
function scriptOf(all) {
    const atTime = new Map();
    for (const { number, kept } of all) {
        for (const [clock, calls] of kept) calls.forEach((call, i) => atTime.set(clock - calls.length + 1 + i, [...(atTime.get(clock - calls.length + 1 + i) ?? []), [number, call]]));
    }
    const times = [...atTime.keys()].sort((a, b) => a - b);
    same("no time lacks an operation", times, times.map((_, i) => i + 1));
    const clocks = new Map();
    const lines = [`replicas ${Math.max(...all.map(({ number }) => number))}`];
    let before;
    for (const time of times) {
        for (const [number] of atTime.get(time)) if (time > 1 && clocks.get(number) !== time - 1) lines.push(`deliver p${before} ${number}`);
        for (const [number, [operation, ...values]] of atTime.get(time)) lines.push(`do ${number} ${operation} ${values.map((it) => JSON.stringify(it)).join(" ")}`);
        for (const [number] of atTime.get(time)) {
            clocks.set(number, time);
            lines.push(`ship ${number} p${number}`);
        }
        before = atTime.get(time)[0][0];
    }
    for (const { number } of all) for (const other of all) if (clocks.has(other.number)) lines.push(`deliver p${other.number} ${number}`);
    return { lines, names: [...new Set([...atTime.values()].flat().map(([, [operation, name]]) => operation === "add" && name))].filter(Boolean).sort() };
}

function ran(command, lines) {
    const script = join(room, "same.script");
    writeFileSync(script, `${lines.join("\n")}\n`);
    const files = [here("../list.type"), ...(command === "run" ? [here("../list.design")] : []), script];
    return execFileSync(options.program, [command, ...files], { encoding: "utf8", stdio: ["ignore", "pipe", "ignore"], maxBuffer: 2 ** 28 }).trimEnd().split("\n");
}

// What `run` or `model` answers to what the page asks, in the place of a list.
class Answers {
    constructor(command, { lines, names }, texts) {
        this.names = names;
        this.asks = [...names.flatMap((it) => [`amount "${it}"`, `is_ticked "${it}"`]), "title_now", ...texts.map((it) => `text_of "${it}"`)];
        this.told = new Map(ran(command, [...lines, ...this.asks.map((it) => `ask 1 ${it}`)]).map((line) => line.slice(2).split(" = ")));
    }
    ask(question) {
        return JSON.parse(this.told.get(question) ?? '""');
    }
    textOf(name) {
        return this.ask(`text_of "${name}"`);
    }
    shown() {
        const things = this.names.map((it) => [textOf(this, it), this.ask(`amount "${it}"`), this.ask(`is_ticked "${it}"`)]).filter(([, amount]) => amount > 0);
        const title = this.ask("title_now");
        things.sort(([a], [b]) => a.localeCompare(b));
        return { title: title && textOf(this, title), things: [...things.filter(([, , ticked]) => !ticked), ...things.filter(([, , ticked]) => ticked)] };
    }
}

async function settled(all) {
    for (const end = Date.now() + 120_000; Date.now() < end; await pause(50)) {
        const states = await Promise.all(all.map(async (it) => JSON.stringify(JSON.parse(await it.state()).slice(4))));
        const statuses = await Promise.all(all.map((it) => it.status()));
        if (new Set(states).size === 1 && statuses.every((it) => it === "sent")) return true;
    }
    return false;
}

async function agreeing(name, all = devices) {
    look(`${name}: all devices come to one state`, await settled(all), await Promise.all(all.map(async (it) => [it.number, await it.status(), await it.state()])));
    await pause(50);
    const script = scriptOf(all);
    const texts = [];
    for (const it of [...THINGS, ...TITLES]) texts.push(...(await nameOf(it)).calls.map(([, at]) => at));
    const wanted = new Answers("run", script, texts).shown();
    same(`${name}: \`model\` says what \`run\` does`, new Answers("model", script, texts).shown(), wanted);
    for (const it of all) same(`${name}: device ${it.number} shows what \`run\` answers`, await it.shown(), wanted);
    const states = ran("run", [...script.lines, ...all.map(({ number }) => `show ${number}`)]);
    for (const [i, it] of all.entries()) {
        const [, , , clock, state] = JSON.parse(await it.state());
        same(`${name}: device ${it.number} keeps the state that \`run\` shows`, `${it.number} clock ${clock} ${JSON.stringify(state)}`, states[i]);
    }
}

// ---- one thing at a time

async function offline() {
    const [device, other] = devices;
    const before = await other.shown();
    await device.offline(true);
    await device.want("Olive oil");
    look("it is told that there is no connection", await device.page.until(() => document.getElementById("status").dataset.status === "offline"), await device.status());
    await pause(300);
    same("what is done without a connection stays here", await other.shown(), before);
    await device.offline(false);
    await agreeing("after a time without a connection");
}

async function reloading() {
    const [device] = devices;
    const before = await device.shown();
    await device.page.send("Page.reload");
    await pause(200);
    look("a page opens again", await device.ready());
    same("and shows the same", await device.shown(), before);
    await device.want("Salt");
    // it is killed right after something was kept
    await device.crash();
    await open(device, link);
    look("it opens after a crash", await device.ready());
}

async function secondTab() {
    const [device] = devices;
    const { page: tab, number } = device;
    await open(device, link);
    look("a second tab opens", await device.ready());
    const other = device.page;
    for (let i = 0; i < 6; i += 1) {
        device.page = i % 2 ? tab : other;
        await device.want(one(THINGS));
    }
    // both at the same moment
    const before = device.kept.size;
    await Promise.all([tab.ask(ask, "Milk"), other.ask(ask, "Bread"), tab.ask(ask, "Milk")]);
    for (let i = 0; i < 200 && device.kept.size < before + 3; i += 1) await pause(20);
    same("no time is used twice", device.kept.size, before + 3);
    look("both tabs have one number", device.number === number, device.number);
    let [here, there] = [1, 2];
    for (const end = Date.now() + 10_000; JSON.stringify(here) !== JSON.stringify(there) && Date.now() < end; await pause(50)) {
        device.page = tab;
        here = await device.shown();
        device.page = other;
        there = await device.shown();
    }
    same("both tabs show the same", here, there);
    // the one that talked with the server goes away
    await browser.send("Target.closeTarget", { targetId: tab.target });
    await device.want("Apples");
    await agreeing("two tabs");
}

// Writes more than there is room for, so that Chromium asks again how much there is; else it believes for a while what it heard.
function overfill(bytes) {
    return new Promise((done) => {
        const request = indexedDB.open("much", 1);
        request.onupgradeneeded = () => request.result.createObjectStore("much");
        request.onsuccess = () => {
            const transaction = request.result.transaction("much", "readwrite");
            for (let i = 0; i < bytes / 60_000; i += 1) transaction.objectStore("much").put(crypto.getRandomValues(new Uint8Array(60_000)), i);
            transaction.oncomplete = () => done(false);
            transaction.onabort = () => done(transaction.error.name === "QuotaExceededError");
        };
        request.onerror = () => done(true);
    });
}

async function fullStorage() {
    const device = await open(await Device.of(browser), link, ["Storage.overrideQuotaForOrigin", { origin, quotaSize: 3_000_000 }]);
    devices.push(device);
    look("a device with little room gets in", await device.ready());
    await device.want("Salt");
    await agreeing("with little room");
    const before = await device.shown();
    await device.page.send("Storage.overrideQuotaForOrigin", { origin, quotaSize: 1 });
    if (!(await device.page.ask(overfill, 4_000_000))) return console.log("examples/app/try/pages.mjs: this Chromium doesn't heed the quota that is set, so a full storage isn't tried");
    await device.page.ask(ask, "Too much");
    look("a full storage is told", await device.page.until(() => document.getElementById("problem").textContent.includes("no room left")), await device.page.ask(() => document.body.textContent));
    await shot("full", device);
    same("and what wasn't kept isn't shown", await device.shown(), before);
    await devices[0].want("Coffee (whole beans)");
    look("nor is what others changed", await device.page.until(() => document.getElementById("status").dataset.status === "full"), await device.status());
    await device.page.send("Storage.overrideQuotaForOrigin", { origin });
    await device.want("Salt");
    look("with room it goes on", await device.page.ask(() => document.getElementById("problem").hidden));
    await agreeing("after a full storage");
}

async function withoutServer() {
    const [, , device] = devices;
    await server.kill();
    await browser.send("Target.closeTarget", { targetId: device.page.target });
    await open(device, link);
    look("the page opens without the server", await device.ready());
    look("and says so", await device.page.until(() => document.getElementById("status").dataset.status === "offline"), await device.status());
    await device.want("Olive oil");
    await shot("offline", device);
    const stranger = await open(await Device.of(browser), `${origin}/`);
    look("who was never here sees nothing", !(await stranger.page.ask(() => document.getElementById("home"))));
    await server.start();
    await agreeing("after a start without the server");
}

async function strangers() {
    const stranger = await open(await Device.of(browser), `${origin}/#${"x".repeat(24)}`);
    const refusal = () => document.getElementById("status")?.textContent.includes("there is no list with this key");
    look("nobody gets in with a wrong key", await stranger.page.until(refusal));
    look("and can do nothing", await stranger.page.ask(() => document.getElementById("want").matches(":disabled")));
    await shot("stranger", stranger);
}

// The server loses everything, and devices bring it back. Then it is set back to before a device came, whose number it may give away.
async function setBack() {
    await server.kill();
    for (const ending of ["", "-wal", "-shm"]) rmSync(`${data}${ending}`, { force: true });
    await server.start();
    const late = await open(await Device.of(browser), link);
    look("a new device gets in when one of the others was there", await late.ready());
    await late.want("Milk");
    devices.push(late);
    await agreeing("a server that lost everything");
    const numbers = await Promise.all(devices.map(async (it) => JSON.parse(await it.state())[2]));
    same("all have the numbers that they had, and the new one has another", numbers, devices.map((_, i) => i + 1));
    const backup = join(room, "backup.db");
    await server.kill();
    execFileSync(server.python, ["-c", "import sqlite3, sys; sqlite3.connect(sys.argv[1]).execute('vacuum into ?', (sys.argv[2],))", data, backup]);
    await server.start();
    const forgotten = await open(await Device.of(browser), link);
    look("another one gets in", await forgotten.ready());
    await browser.send("Target.closeTarget", { targetId: forgotten.page.target });
    await server.kill();
    for (const ending of ["-wal", "-shm"]) rmSync(`${data}${ending}`, { force: true });
    copyFileSync(backup, data);
    await server.start();
    const newest = await open(await Device.of(browser), link);
    look("and one after the backup", await newest.ready());
    await newest.want("Bread");
    await open(forgotten, link);
    look("the one that is forgotten opens", await forgotten.ready());
    const has = async (it) => (await (await import("/store.mjs")).allLists())[0][1].replica !== it;
    look("and never has the other one's number", await forgotten.page.until(has, newest.number));
    await forgotten.want("Salt");
    devices.push(newest, forgotten);
    await agreeing("a server that was set back");
}

// for who can't see, has no mouse, or a small or a dark screen
async function looking() {
    const [device] = devices;
    await device.press("tick", "Bread");
    const { nodes } = await device.page.send("Accessibility.getFullAXTree");
    const used = nodes.filter(({ role, ignored }) => !ignored && ["button", "textbox", "checkbox", "link", "list", "region"].includes(role?.value));
    const nameless = used.filter(({ name }) => !name?.value).map(({ role }) => role.value);
    look("all that is used has a name", used.length > 10 && nameless.length === 0, nameless);
    await device.page.ask(() => document.querySelector("header a").focus());
    const reached = [];
    for (let i = 0; i < 6; i += 1) {
        reached.push(await device.page.ask(() => document.activeElement.id || document.activeElement.ariaLabel || document.activeElement.type || document.activeElement.textContent));
        await device.page.key("Tab", 9);
    }
    same("the order of the keyboard", reached.slice(0, 5), ["Your lists", "title", "share", "want", "submit"]);
    for (const theme of ["light", "dark"]) {
        await device.page.send("Emulation.setEmulatedMedia", { features: [{ name: "prefers-color-scheme", value: theme }] });
        for (const width of [320, 390, 1280]) {
            await device.page.send("Emulation.setDeviceMetricsOverride", { width, height: 800, deviceScaleFactor: 1, mobile: width < 600 });
            await pause(100);
            const needed = await device.page.ask(() => document.documentElement.scrollWidth);
            look(`a window of ${width} pixels is wide enough`, needed <= width, needed);
            await shot(`${theme}_${width}`, device);
        }
    }
    await open(device, origin);
    await device.page.until(() => document.querySelector("#lists li"));
    same("the list is among those of the device", await device.page.ask(() => document.querySelector("#lists .text").textContent), (await devices[1].shown()).title || "Shopping list");
    await shot("home", device);
    await open(device, link);
    look("and opens again", await device.ready());
}

const parts = [beginning, storm, () => agreeing("after the storm"), offline, reloading, secondTab, fullStorage, withoutServer, strangers, looking, setBack];
try {
    for (const part of parts) {
        const from = Date.now();
        await part();
        if (process.env.TIMES) console.log(`${part.name || "agreeing"}: ${Date.now() - from} ms`);
    }
    const away = pages.flatMap(({ requests }) => requests).filter((it) => !it.startsWith(origin) && !/^(about|data):/.test(it));
    look("nothing is asked of others", away.length === 0, away);
    const secret = pages.flatMap(({ requests }) => requests).filter((it) => it.slice(origin.length).includes(link.split("#")[1]));
    look("no address that is asked for has the key", secret.length === 0, secret);
    const faults = pages.flatMap((it) => it.faults);
    look("no page has a fault", faults.length === 0, faults);
    look("nor has the server", server.errors === "", server.errors);
} catch (error) {
    failures.push(error.stack);
} finally {
    await browser.close();
    await server.kill().catch(() => {});
    network.close();
    rmSync(room, { recursive: true, force: true });
}
for (const failure of failures) console.log(`examples/app/try/pages.mjs: ${failure}`);
const { calls, doubled, late, lost, unanswered } = network.told;
const changes = devices.reduce((sum, { kept }) => sum + [...kept.values()].flat().length, 0);
console.log(`examples/app/try/pages.mjs: ${looked - failures.length} passed, ${failures.length} failed; ${changes} operations, ${kills} kills of the server, ${calls} calls, of which ${doubled} doubled, ${late} late again, ${lost} lost, ${unanswered} without an answer; ${Math.round((Date.now() - began) / 1000)} s`);
process.exitCode = failures.length ? 1 : 0;
