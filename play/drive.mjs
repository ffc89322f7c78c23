// Opens the page in a headless Chromium from its folder and uses it as people do: a type is typed, its design found, replicas played with;
// and each answer that is shown is compared with what `run` and `model` print of the same script.
//     node play/drive.mjs [--programs FOLDER] [--shots FOLDER] [--all] [PAGE]
// They are asked of the module, or of the programs in FOLDER/kat_program/out and so on. With --all each example is found. CHROMIUM is the
// browser.
import { execFileSync } from "node:child_process";
import { existsSync, mkdirSync, mkdtempSync, readFileSync, rmSync, writeFileSync } from "node:fs";
import { createServer } from "node:http";
import { tmpdir } from "node:os";
import { join, resolve } from "node:path";
import process from "node:process";
import { fileURLToPath, pathToFileURL } from "node:url";
import { Browser, pause } from "./browser.mjs";
import { call } from "./call.mjs";
import { load } from "./module.mjs";

const options = { programs: undefined, shots: undefined, all: false, page: fileURLToPath(new URL("katara.html", import.meta.url)) };
for (const words = process.argv.slice(2); words.length; ) {
    const word = words.shift();
    if (word === "--programs" || word === "--shots") options[word.slice(2)] = resolve(words.shift());
    else if (word === "--all") options.all = true;
    else options.page = resolve(word);
}
const url = pathToFileURL(options.page).href;
const room = mkdtempSync(join(tmpdir(), "katara-"));
const module = options.programs ? undefined : load();

// what a command prints of texts, with these options
function printed(command, texts, ...more) {
    const words = [command, ...Object.keys(texts), ...more];
    if (module) return new TextDecoder().decode(call(module, words, new Map(Object.entries(texts))).output);
    const program = command === "emit" ? "kat_people" : "kat_program";
    for (const [name, text] of Object.entries(texts)) writeFileSync(join(room, name), text);
    return execFileSync(join(options.programs, `${program}/out/${program}`), words, { cwd: room, encoding: "utf8" });
}

const failures = [];
let looked = 0;
function look(name, holds, seen = "") {
    looked += 1;
    if (!holds) failures.push(`${name}: ${typeof seen === "string" ? seen : JSON.stringify(seen)}`);
}

const browser = new Browser(process.env.CHROMIUM ?? "chromium");
let page;

// ---- what is done in the page, and read there

const text = (id) => page.ask((it) => document.getElementById(it).textContent, id);
const valueOf = (id) => page.ask((it) => document.getElementById(it).value, id);
const press = (id) => page.ask((it) => document.getElementById(it).click(), id);
const pressed = (within, label) =>
    page.ask((at, it) => [...document.querySelectorAll(`${at} button`)].find((one) => one.textContent === it || one.getAttribute("aria-label") === it).click(), within, label);
const ready = () => page.until(() => document.body?.dataset.ready === "yes");
// the script's answers are asked for at each change, and shown a moment later
const settled = () => page.until(() => document.body.dataset.shown === document.body.dataset.asked);
const shown = async (act) => {
    const before = await page.ask(() => document.body.dataset.asked);
    await act();
    await page.until((it) => document.body.dataset.asked !== it, before);
    await settled();
};
const ended = async () => {
    await page.until(() => !document.getElementById("find").disabled && !/^Looking|^Found in [\d.]+ m?s\.$/.test(document.getElementById("verdict").textContent));
    await settled();
};
const choose = (id, value) =>
    page.ask(
        (at, it) => {
            const list = document.getElementById(at);
            list.value = it;
            list.dispatchEvent(new Event("change"));
        },
        id,
        value,
    );
const take = (example) => shown(() => choose("examples", example));
const find = async () => {
    await press("find");
    await ended();
    return text("verdict");
};
const isAccepted = (verdict) => verdict.includes("its proof is accepted");
async function type(id, written) {
    await page.ask((it) => {
        document.getElementById(it).focus();
        document.getElementById(it).select();
    }, id);
    return shown(() => page.write(written));
}
async function shot(name) {
    if (!options.shots) return;
    mkdirSync(options.shots, { recursive: true });
    writeFileSync(join(options.shots, `${name}.png`), await page.picture());
}

// what is selected in an editor
const selected = (id) =>
    page.ask((at) => {
        const it = document.getElementById(at);
        return document.activeElement === it && it.value.slice(it.selectionStart, it.selectionEnd);
    }, id);
// what is marked there, in which line, and whether that is in its window
const markOf = (id) =>
    page.ask((at) => {
        const it = document.getElementById(at);
        const mark = it.previousElementSibling.querySelector("mark");
        const [whole, place, style] = [it.getBoundingClientRect(), mark?.getBoundingClientRect(), getComputedStyle(it)];
        const line = mark && 1 + Math.round((place.top - whole.top - parseFloat(style.paddingTop) + it.scrollTop) / parseFloat(style.lineHeight));
        return { text: mark?.textContent, line, isSeen: mark && place.top >= whole.top && place.bottom <= whole.bottom };
    }, id);

// the same, once it is as wanted, or after some seconds: what shows the mark scrolls a moment after the editor
async function settledMark(id, holds) {
    let mark = await markOf(id);
    for (const end = Date.now() + 10_000; !holds(mark) && Date.now() < end; mark = await markOf(id)) await new Promise((go) => setTimeout(go, 20));
    return mark;
}

// the rows of the tables: [replica, question, the design's answer, the type's]
const rows = () =>
    page.ask(() =>
        [...document.querySelectorAll(".replica")].flatMap((panel, i) =>
            [...panel.querySelectorAll("tbody tr")].map((row) => [i + 1, ...[...row.cells].map((cell) => cell.textContent.replace(/ [✓✗]$/, ""))]),
        ),
    );

// each answer beside what `run` and `model` print
async function compare(step) {
    const [typed, design, script, seen] = [await valueOf("type"), await text("file"), await valueOf("script"), await rows()];
    const asked = `${script.trimEnd()}\n${seen.map(([replica, question]) => `ask ${replica} ${question}`).join("\n")}\n`;
    const last = (output) => output.trimEnd().split("\n").slice(-seen.length);
    const run = last(printed("run", { type: typed, design, script: asked }));
    const model = last(printed("model", { type: typed, script: asked }));
    look(`${step}: some answers are shown`, seen.length > 0);
    seen.forEach(([replica, question, mine, its], i) => {
        look(`${step}: \`run\` of ${question}`, run[i] === `${replica} ${question} = ${mine}`, [run[i], mine]);
        look(`${step}: \`model\` of ${question}`, model[i] === `${replica} ${question} = ${its}`, [model[i], its]);
        look(`${step}: the design answers as the type`, mine === its, [mine, its]);
    });
}

// ---- the looks

async function opening() {
    const began = Date.now();
    await browser.send("Browser.setDownloadBehavior", { behavior: "allow", downloadPath: room });
    page = await browser.open(url);
    look("the page is ready", await ready(), await page.ask(() => document.body.innerText.slice(0, 300)));
    console.log(`play/drive.mjs: ready after ${Date.now() - began} ms`);
}

// what the browser saved as this file
async function saved(name, act) {
    const path = join(room, name);
    rmSync(path, { force: true });
    await act();
    for (const end = Date.now() + 30_000; !existsSync(path) && Date.now() < end; ) await pause(20);
    return existsSync(path) ? readFileSync(path, "utf8") : undefined;
}

// a counter, typed by hand, found by the keyboard, and played with
async function typing() {
    await type("type", "type visits\nstate n: int = 0\nop came(k: nat) rank 0: n := n + k\nquery all(): int = n\n");
    await page.key("Enter", 13, 2);
    await ended();
    look("a typed type is found", isAccepted(await text("verdict")), await text("verdict"));
    look("it is told in words", (await text("words")).includes("What each replica keeps"), await text("words"));
    await shown(() => press("begin"));
    await shown(() => pressed("#replica1", "do came at replica 1"));
    await shown(() => pressed("#replica2", "do came at replica 2"));
    await compare("two operations");
    const packet = await page.ask(() => document.querySelector("#packets li span").textContent);
    look("a packet has its operations", packet === "p1: 1 → 2, 1 operation", packet);
    await shown(() => pressed("#packets", "deliver, keep a copy: p1 to replica 2"));
    await shown(() => pressed("#packets", "deliver: p1 to replica 2"));
    look("a packet that came twice counts once", (await rows()).filter(([replica]) => replica === 2).every(([, , mine]) => mine === "2"), await rows());
    await compare("it came twice");
    const reached = await page.ask(() => document.querySelector("#replica2 details pre").textContent);
    look("what reached a replica", reached === "came 1, at replica 2\ncame 1, at replica 1", reached);
    // a replica that is offline gets nothing, and ships what it did when it is back
    const offline = () => page.ask(() => document.querySelector("#replica3 input[type=checkbox]").click());
    await shown(offline);
    await shown(() => pressed("#replica3", "do came at replica 3"));
    await shown(() => press("deliverall"));
    look("offline, it knows its own operation alone", (await rows()).filter(([replica]) => replica === 3).every(([, , mine]) => mine === "1"), await rows());
    await shown(offline);
    await shown(() => press("deliverall"));
    look("back again, all have the same", new Set((await rows()).map(([, , mine]) => mine)).size === 1, await rows());
    await compare("all delivered");
    await shown(() => press("back"));
    await compare("a line taken back");
}

// the cart's own script and random presses
async function playing() {
    await take("cart");
    const verdict = await find();
    console.log(`play/drive.mjs: cart: ${verdict}`);
    look("the cart is found", isAccepted(verdict), verdict);
    look("the picture is there", await page.until(() => document.getElementById("picture").naturalWidth > 300));
    await compare("the cart");
    await shot("cart");
    let drawn = 20;
    const draw = (below) => (drawn = (drawn * 48271) % 2147483647) % below;
    for (let step = 1; step <= 40; step += 1) {
        const which = draw(1000);
        await shown(() =>
            page.ask((it) => {
                const all = [...document.querySelectorAll("#replicas button, #packets button, #replicas input[type=checkbox]")].filter((one) => !one.disabled);
                all[it % all.length].click();
            }, which),
        );
        if (step % 8 === 0) await compare(`random presses, step ${step}`);
    }
}

// the design as code of each language that the page offers, and its files
async function coding() {
    await take("cart");
    look("there is no code of no design", await page.ask(() => document.getElementById("codepart").hidden));
    await find();
    const texts = { type: await valueOf("type"), design: await text("file") };
    look("the file is saved", (await saved("cart.design", () => press("save"))) === texts.design);
    look("and the type", (await saved("cart.type", () => press("savetype"))) === texts.type);
    look("and the script", (await saved("cart.script", () => press("savescript"))) === (await valueOf("script")));
    look("and the picture", (await saved("cart.svg", () => press("savepicture")))?.startsWith("<svg"));
    await page.ask(() => (document.getElementById("codepart").open = true));
    const languages = await page.ask(() => [...document.getElementById("language").options].map((it) => [it.value, it.dataset.end]));
    look("there are languages", languages.length >= 3, languages);
    for (const [language, end] of languages) {
        await choose("language", language);
        await page.until((it) => document.body.dataset.coded === it, language);
        const code = printed("emit", texts, "--language", language);
        look(`the code in ${language}`, code.length > 1000 && (await text("code")) === code, await text("code"));
        look(`and its file`, (await saved(`cart.${end}`, () => press("savecode"))) === code);
    }
    await shot("code");
    const { Cart } = await import(pathToFileURL(join(room, "cart.mjs")).href);
    const cart = new Cart(1);
    cart.add("milk", 2n);
    look("the saved code counts", cart.count("milk") === 2n);
    // (what is copied can be read by those who may)
    await browser.send("Browser.grantPermissions", { permissions: ["clipboardReadWrite", "clipboardSanitizedWrite"] });
    await page.send("Emulation.setFocusEmulationEnabled", { enabled: true });
    await press("copycode");
    look("the code is copied", await page.until(() => document.getElementById("copied").textContent === "The code is copied."), await text("copied"));
    look("as it is", (await page.ask(() => navigator.clipboard.readText())) === (await text("code")));
    await page.ask(() => (navigator.clipboard.writeText = () => Promise.reject(new Error("no"))));
    await press("copycode");
    look("or selected", await page.until(() => document.getElementById("copied").textContent.startsWith("It is selected")), await text("copied"));
    look("all of it", (await page.ask(() => getSelection().toString().trimEnd())) === (await text("code")).trimEnd());
    await page.ask(() => document.getElementById("language").append(new Option("none", "none")));
    await choose("language", "none");
    look("that there is no code is told", await page.until(() => document.getElementById("codefault").textContent.startsWith("There is no code")), await text("codefault"));
    look("and nothing can be saved", await page.ask(() => document.getElementById("savecode").disabled && document.getElementById("copycode").disabled));
    await page.ask(() => document.querySelector("#language option[value=none]").remove());
}

// each example ends with a design or a report
async function finding() {
    const names = await page.ask(() => [...document.getElementById("examples").options].map((it) => it.value));
    const chosen = options.all ? names : ["todo_list", "votes", "calendar_entry", "no_order"];
    for (const name of chosen) {
        await take(name);
        const verdict = await find();
        if (options.all) console.log(`play/drive.mjs: ${name}: ${verdict}`);
        if (isAccepted(verdict)) await compare(name);
        else look(`${name} ends with a report`, (await text("file")).length > 0, verdict);
    }
}

// what is refused is told in words, at its place
async function mistakes() {
    await type("type", "type t\nstate c: nat = 0\nop add(n: nat) rank 0: c := c + m\nquery get(): nat = c\n");
    await press("find");
    await ended();
    look("a mistake in a type is told", await page.until(() => document.getElementById("fault").textContent.startsWith("Line 3: a word that nothing declares")), await text("fault"));
    look("and its place is selected", (await selected("type")) === "m", await selected("type"));
    const inThird = (it) => it.text === "m" && it.line === 3;
    const marked = await settledMark("type", inThird);
    look("and marked in the third line", inThird(marked), marked);
    await shot("mistake");
    await type("type", "type t\nstate c: nat = 0\nop add(n: nat) rank 0: c := c + n\nquery get(): nat = c\n");
    look("what is mended isn't marked", !(await markOf("type")).text && !(await text("fault")), await text("fault"));
    await take("cart");
    await type("script", `replicas 2\n${"do 1 add \"milk\" 1\n".repeat(60)}do 3 add "milk" 1\n`);
    look("a mistake in a script is told", await page.until(() => document.getElementById("scriptfault").textContent.startsWith("Line 62: there is no such replica")), await text("scriptfault"));
    await pressed("#scriptfault", "Go there");
    look("one goes there", (await selected("script")) === "do 3 add \"milk\" 1", await selected("script"));
    const isThere = (it) => it.text === "do 3 add \"milk\" 1" && it.line === 62 && it.isSeen;
    const there = await settledMark("script", isThere);
    look("and sees it", isThere(there), there);
}

async function stopping() {
    await take("no_order");
    await page.ask(() => (document.getElementById("size").value = 14));
    await press("synth");
    await page.until(() => /^1\.\d s$/.test(document.getElementById("time").textContent));
    const [told, part] = await page.ask(() => [document.getElementById("far").textContent, document.getElementById("busy").value]);
    look("it tells how far it is", /^none of size \d+ is right; now size \d+ of 14$/.test(told) && part > 0 && part < 1, [told, part]);
    await page.key("Escape", 27);
    look("a search is stopped", await page.until(() => document.getElementById("time").textContent.startsWith("stopped after")), await text("time"));
    await page.ask(() => (document.getElementById("size").value = ""));
    await take("counter");
    look("and the next one goes on", isAccepted(await find()), await text("verdict"));
    // size by size it ends as one call does
    for (const [name, size] of [["cart", "4"], ["toggle", "3"]]) {
        const typed = readFileSync(new URL(name === "cart" ? "../examples/gallery/cart/cart.type" : "../examples/types/toggle.type", import.meta.url), "utf8");
        await type("type", typed);
        await page.ask((it) => (document.getElementById("size").value = it), size);
        await press("synth");
        await ended();
        look(`the listing of ${name}`, (await text("file")) === printed("synth", { type: typed }, "--size", size), await text("file"));
    }
    await page.ask(() => (document.getElementById("size").value = "25"));
    await press("synth");
    await ended();
    look("a size that can't be is told", (await text("verdict")).startsWith("One of the options"), await text("verdict"));
    await page.ask(() => (document.getElementById("size").value = ""));
    await type("type", readFileSync(new URL("../examples/gallery/no_order/no_order.type", import.meta.url), "utf8"));
    await page.ask(() => (document.getElementById("size").value = 14));
    await press("synth");
    await page.until(() => !document.getElementById("stop").disabled);
    await type("type", "type t\nstate c: nat = 0\n");
    look("who writes on ends the search", await page.until(() => document.getElementById("stop").disabled && document.getElementById("verdict").textContent === "The search was stopped."), await text("verdict"));
    await page.ask(() => (document.getElementById("size").value = ""));
}

// the same page at another place, by the link alone
async function linking() {
    await take("counter");
    const [typed, script] = [await valueOf("type"), await valueOf("script")];
    await page.ask(() => {
        document.getElementById("size").value = "3";
        document.querySelector("#kinds input[value=table]").click();
    });
    await press("synth");
    await ended();
    const file = await text("file");
    look("the listing has a design", isAccepted(await text("verdict")), await text("verdict"));
    await press("link");
    await page.until(() => location.hash.length > 1);
    page = await browser.open(await page.ask(() => location.href));
    await ready();
    look("a link has the type", (await valueOf("type")) === typed, await valueOf("type"));
    look("and the script", (await valueOf("script")) === script, await valueOf("script"));
    await ended();
    look("and the design, by the same search", (await text("file")) === file && isAccepted(await text("verdict")), await text("verdict"));
    const options = await page.ask(() => [document.getElementById("size").value, [...document.querySelectorAll("#kinds input:not(:checked)")].map((it) => it.value).join()]);
    look("with its options", options.join(" ") === "3 table", options);
    const before = page;
    page = await browser.open(`${url}#${new URLSearchParams({ type: typed })}`);
    await ready();
    look("without a search there is no design", (await text("verdict")).startsWith("None yet"), await text("verdict"));
    page = before;
    await page.send("Page.bringToFront"); // (keys go nowhere else)
}

// from a server: it is asked for the page, and for nothing more
async function serving() {
    const asked = [];
    const server = createServer(({ url }, answer) => {
        asked.push(url);
        answer.writeHead(200, { "content-type": "text/html" }).end(readFileSync(options.page));
    });
    await new Promise((done) => server.listen(0, "127.0.0.1", done));
    const here = page;
    page = await browser.open(`http://127.0.0.1:${server.address().port}/play/#${new URLSearchParams({ type: await valueOf("type"), script: "replicas 2\n" })}`);
    await ready();
    look("a design is found on a server's page", isAccepted(await find()), await text("verdict"));
    look("which was asked for nothing else", asked.every((it) => it === "/play/" || it === "/favicon.ico"), asked);
    look("and that page has no fault", page.faults.length === 0, page.faults);
    page = here;
    await page.send("Page.bringToFront");
    server.close();
    server.closeAllConnections();
}

// who can't see, has no mouse, or a small or a dark screen
async function looking() {
    const { nodes } = await page.send("Accessibility.getFullAXTree");
    const used = nodes.filter(({ role, ignored }) => !ignored && ["button", "textbox", "combobox", "checkbox", "spinbutton", "table", "image", "region"].includes(role?.value));
    const nameless = used.filter(({ name }) => !name?.value).map(({ role }) => role.value);
    look("all that is used has a name", used.length > 20 && nameless.length === 0, nameless);
    // by the keyboard alone: each editor can be left, and each part that opens can be opened
    await page.ask(() => (document.getElementById("codepart").open = true));
    await page.until(() => document.body.dataset.coded);
    await page.ask(() => document.getElementById("examples").focus());
    const reached = ["examples"];
    for (let i = 0; i < 16; i += 1) {
        await page.key("Tab", 9);
        reached.push(await page.ask(() => document.activeElement.id || document.activeElement.textContent));
    }
    const wanted = ["type", "find", "synth", "savetype", "options of the search", "save", "link", "words", "codetitle", "language", "copycode", "savecode", "code"];
    look("the order of the keyboard", wanted.every((it, i) => reached[i + 1] === it), reached);
    for (const theme of ["light", "dark"]) {
        await page.send("Emulation.setEmulatedMedia", { features: [{ name: "prefers-color-scheme", value: theme }] });
        for (const width of [360, 690, 1400]) {
            await page.send("Emulation.setDeviceMetricsOverride", { width, height: 1000, deviceScaleFactor: 1, mobile: width < 600 });
            await pause(100);
            const needed = await page.ask(() => document.documentElement.scrollWidth);
            look(`a window of ${width} pixels is wide enough`, needed <= width, needed);
            const drawn = await page.ask((it) => document.querySelector(it).getBoundingClientRect().right, width < 600 ? ".drawing" : "#picture");
            look("and so for the picture", drawn > 100 && drawn <= width, drawn);
            await shot(`${theme}_${width}`);
        }
    }
    look("nothing is asked of a server", page.requests.every((it) => /^(file|data|blob):/.test(it)), page.requests);
    look("the page has no fault", page.faults.length === 0, page.faults);
}

// browsers that can't run it
async function lacking() {
    for (const before of [
        ["Page.addScriptToEvaluateOnNewDocument", { source: "delete globalThis.WebAssembly" }],
        ["Page.addScriptToEvaluateOnNewDocument", { source: "delete globalThis.DecompressionStream" }],
        ["Emulation.setScriptExecutionDisabled", { value: true }],
    ]) {
        page = await browser.open(url, before);
        const told = () => document.getElementById("cannot").checkVisibility() && document.getElementById("main").hidden && document.getElementById("cannot").textContent.includes("Firefox");
        look(`it is told that the page can't run: ${JSON.stringify(before[1])}`, await page.until(told));
    }
}

try {
    for (const part of [opening, typing, playing, coding, finding, mistakes, stopping, linking, serving, looking, lacking]) await part();
} catch (error) {
    failures.push(error.stack);
} finally {
    await browser.close();
    rmSync(room, { recursive: true, force: true });
}
for (const failure of failures) console.log(`play/drive.mjs: ${failure}`);
console.log(`play/drive.mjs: ${looked - failures.length} passed, ${failures.length} failed`);
process.exitCode = failures.length ? 1 : 0;
