// The page: a type, its design, replicas to play with, their script and its picture. It knows nothing of designs and types: what it shows
// is what the program answers. `make.mjs` puts its parts together.
import { answersOf, askedScript, questionsOf } from "./answers.mjs";
import { $, copied, element, save } from "./dom.mjs";
import { tellRefusal, watch } from "./editor.mjs";
import { fitted } from "./picture.mjs";
import { Program } from "./program.mjs";
import { refusalOf } from "./refusal.mjs";
import { answerTable, packetList, replicaPanel } from "./replicas.mjs";
import { linesOf, networkOf } from "./script.mjs";
import { bySizes } from "./sizes.mjs";

const EMPTY_SCRIPT = "replicas 3\n";
const UNFOUND = new Map([
    [1, "One of the options of the search isn't a number that it can be."],
    [4, "No design up to this size is right: for each the report has a history on which it differs from the type."],
    [5, "No design was proved. The report says how far it came, and what is in the way."],
    [6, "The search ended before the listing did. The report tells of each design that was tried."],
    [7, "There wasn't enough memory."],
]);
const examples = JSON.parse($("examplesdata").textContent);

// ---- the program: searches, which may take long and be stopped, have a worker of their own

async function unpacked(text) {
    const packed = Uint8Array.from(atob(text), (letter) => letter.charCodeAt(0));
    return new Response(new Blob([packed]).stream().pipeThrough(new DecompressionStream("gzip"))).arrayBuffer();
}

async function programs() {
    const module = await WebAssembly.compile(await unpacked($("module").textContent.trim()));
    return [new Program(module, $("worker").textContent), new Program(module, $("worker").textContent)];
}

// ---- what the page has

const state = {
    searches: undefined,
    quick: undefined,
    design: undefined, // the text of its file
    by: undefined, // the last search: a word of SEARCHES
    file: undefined, // what may be saved: {end, text} of a design or a report
    signature: undefined, // of operations and of queries, each a name with its sorts
    panels: [],
    turn: 0, // of what is shown: an answer that comes too late is left out
    codeTurn: 0, // of the code that is shown
};

const typeText = () => $("type").value;
const scriptText = () => $("script").value;
const nameOf = (text) => /^\s*type\s+(\w+)/m.exec(text)?.[1] ?? "a";
const seconds = (milliseconds) => (milliseconds < 999.5 ? `${Math.ceil(milliseconds)} ms` : `${(milliseconds / 1000).toFixed(1)} s`);

// ---- a design

function showFile(end, text) {
    state.file = text ? { end, text } : undefined;
    $("save").disabled = !text;
    $("file").textContent = text ?? "";
    $("filetitle").textContent = end === "report" ? "the report" : "the file, with its proof";
    $("filetitle").parentElement.hidden = !text;
    $("filetitle").parentElement.open = end === "report";
}

function showDesign(text, verdict, kind) {
    state.design = text;
    state.signature = text ? JSON.parse(text)[2] : undefined;
    $("verdict").className = kind;
    $("verdict").textContent = verdict;
    showFile("design", text);
    $("words").textContent = "";
    $("codepart").hidden = !text;
    showCode();
    state.panels = [];
    $("replicas").replaceChildren();
    return showScript();
}

// the design as code, while somebody looks at it
async function showCode() {
    const { design } = state;
    const [language, turn] = [$("language").value, (state.codeTurn += 1)];
    const isAsked = design && $("codepart").open;
    const said = isAsked ? await state.searches.call(["emit", "type", "design", "--language", language], { type: typeText(), design }) : undefined;
    if (turn !== state.codeTurn) return;
    const code = said?.status === 0 ? said.output : "";
    $("code").textContent = code;
    $("codefault").textContent = isAsked && !code ? `There is no code of this design: ${said ? said.errors : "it was stopped"}` : "";
    $("copied").textContent = "";
    for (const id of ["copycode", "savecode"]) $(id).disabled = !code;
    document.body.dataset.coded = code ? language : "";
}

const codeFile = () => `${nameOf(typeText())}.${$("language").selectedOptions[0].dataset.end}`;

async function copyCode() {
    if (await copied($("code").textContent)) return ($("copied").textContent = "The code is copied.");
    getSelection().selectAllChildren($("code"));
    $("copied").textContent = "It is selected: press Ctrl and C.";
}

async function designFound(text, time) {
    const type = typeText();
    const shown = showDesign(text, `Found in ${seconds(time)}.`, "good");
    const [checked, told] = await Promise.all([
        state.searches.call(["check", "type", "design"], { type, design: text }),
        state.searches.call(["explain", "type", "design"], { type, design: text }),
    ]);
    if (state.design !== text || !checked || !told) return;
    const accepted = checked.status === 0 && checked.output === "accepted\n";
    $("verdict").textContent = accepted ? `Found in ${seconds(time)}, and its proof is accepted.` : `Found, but ${checked.errors}`;
    $("verdict").className = accepted ? "good" : "bad";
    $("words").textContent = told.output || told.errors;
    await shown;
}

function searching(on) {
    for (const id of ["find", "synth"]) $(id).disabled = on;
    $("stop").disabled = !on;
    $("busy").hidden = !on;
}

// how far a search is, as a part of 1 and in words
function tellFar(part, told) {
    if (part === undefined) $("busy").removeAttribute("value");
    else $("busy").value = part;
    $("far").textContent = told;
}

// Searches by `call`, which gives what the program says at the end, or nothing if it was stopped.
async function search(call) {
    const began = performance.now();
    const spent = () => seconds(performance.now() - began);
    const ticking = setInterval(() => ($("time").textContent = spent()), 100);
    searching(true);
    tellRefusal(undefined, $("type"), $("fault"));
    showDesign(undefined, "Looking for a design …", "soft");
    const said = await call({ type: typeText() });
    clearInterval(ticking);
    searching(false);
    tellFar(undefined, "");
    $("time").textContent = said ? spent() : `stopped after ${spent()}`;
    if (!said) return showDesign(undefined, "The search was stopped.", "soft");
    if (said.status === 0) return designFound(said.output, performance.now() - began);
    const refusal = refusalOf(said.errors, "type", typeText());
    if (refusal) tellRefusal(refusal, $("type"), $("fault"), true);
    const shown = showDesign(undefined, refusal ? "This isn't a type yet." : (UNFOUND.get(said.status) ?? said.errors), refusal ? "soft" : "bad");
    showFile("report", said.output);
    return shown;
}

const OPTIONS = ["size", "designs", "effort"];
const option = (id) => ($(id).value ? [`--${id}`, $(id).value] : []);
const kindBoxes = () => [...document.querySelectorAll("#kinds input")];
// those that are chosen, if not all or none are
function chosenKinds() {
    const chosen = kindBoxes().filter((it) => it.checked);
    return chosen.length && chosen.length < kindBoxes().length ? chosen.map((it) => it.value).join(",") : "";
}

function find() {
    const words = ["find", "type", ...option("effort"), ...option("designs")];
    return search((files) => {
        tellFar(undefined, "by rules, and then part by part among small designs");
        return state.searches.call(words, files);
    });
}

function synth() {
    const words = ["synth", "type", ...option("effort"), ...option("designs"), ...(chosenKinds() ? ["--kinds", chosenKinds()] : [])];
    const tell = (size, greatest) => tellFar((size - 1) / greatest, size > 1 ? `none of size ${size - 1} is right; now size ${size} of ${greatest}` : `size 1 of ${greatest}`);
    return search((files) => bySizes($("size").value, (size) => state.searches.call([...words, "--size", String(size)], files), tell));
}

const SEARCHES = { find, synth };
function begin(by) {
    state.by = by;
    return SEARCHES[by]();
}

// ---- the script, and what it gives

const act = (linesFor) => {
    const added = linesFor(networkOf(linesOf(scriptText())), $("shipped").checked);
    $("script").value = `${[scriptText().trimEnd(), ...added].join("\n")}\n`;
    $("script").scrollTop = $("script").scrollHeight;
    return showScript();
};

function drawReplicas(network) {
    if (state.panels.length === network.replicas.length) return;
    state.panels = network.replicas.map((replica) => replicaPanel(replica, state.signature, act));
    $("replicas").replaceChildren(...state.panels.map(({ panel }) => panel));
}

// The words with which a script is called: with a design, or by the type alone.
async function askProgram(script, asked) {
    const { quick, design } = state;
    const files = { type: typeText(), script: asked };
    const [model, run, picture] = await Promise.all([
        quick.call(["model", "type", "script"], files),
        design ? quick.call(["run", "type", "design", "script"], { ...files, design }) : undefined,
        quick.call(["picture", "script", ...(design ? ["type", "design"] : [])], { type: typeText(), script, ...(design ? { design } : {}) }),
    ]);
    return { model, run, picture };
}

async function showScript() {
    const turn = (state.turn += 1);
    document.body.dataset.asked = turn;
    state.quick.stop(); // what was asked before is out of date
    const lines = linesOf(scriptText());
    const network = networkOf(lines);
    const { design } = state;
    if (design) drawReplicas(network);
    const questions = design ? questionsOf(lines, state.signature) : [];
    const { model, run, picture } = await askProgram(scriptText(), design ? askedScript(scriptText(), network.replicas, questions) : scriptText());
    if (turn !== state.turn || !model || !picture) return;
    tellRefusal(refusalOf(model.errors, "type", typeText()), $("type"), $("fault"));
    tellRefusal(refusalOf(model.errors, "script", scriptText()), $("script"), $("scriptfault"));
    $("replicanote").hidden = Boolean(design);
    $("network").hidden = !design;
    showPackets(network);
    showPicture(picture);
    const { asked, ends } = model.status === 0 ? answersOf(lines, network.replicas, questions, model.output, run?.output) : { asked: [], ends: [] };
    state.panels.forEach(({ show }, i) => show(ends[i], network));
    const heads = ["asked in the script", design ? "the design" : "", "the type"];
    const told = asked.map((it) => ({ ...it, question: `${it.replica} ${it.question}` }));
    $("answers").replaceChildren(...(told.length ? [answerTable("what the script asks", heads, told)] : []));
    document.body.dataset.shown = turn;
}

function showPackets(network) {
    const focused = $("packets").contains(document.activeElement);
    $("packets").replaceChildren(...(state.design ? packetList(network, act) : []));
    // (whoever presses by the keyboard goes on from there)
    if (focused) $("packets").querySelector("button:enabled")?.focus();
}

function showPicture({ status, output }) {
    $("savepicture").disabled = status !== 0;
    if (status !== 0) return;
    const svg = fitted(output);
    // (in a narrow window a wide one is moved sideways, so that it can be read)
    $("picture").style.minWidth = `min(${/width='(\d+)'/.exec(svg)[1]}px, 30rem)`;
    $("picture").src = `data:image/svg+xml,${encodeURIComponent(svg)}`;
    $("picture").hidden = false;
    if ($("pictureastext").parentElement.open) showPictureText();
}

async function showPictureText() {
    const { design } = state;
    const said = await state.quick.call(["picture", "--text", "script", ...(design ? ["type", "design"] : [])], { type: typeText(), script: scriptText(), ...(design ? { design } : {}) });
    if (said) $("pictureastext").textContent = said.output || said.errors;
}

// ---- examples and links

function take(type, script) {
    $("type").value = type;
    $("script").value = script ?? EMPTY_SCRIPT;
    $("time").textContent = "";
    state.searches.stop();
    return showDesign(undefined, "None yet: press “Find a design”.", "soft");
}

const takeExample = (name) => take(examples[name].type, examples[name].script);

// the type and the script that the part of the address after # has, and the search that gave the design there, which is made once more
function takeLink() {
    const linked = new URLSearchParams(location.hash.slice(1));
    if (!linked.has("type")) return false;
    $("examples").value = "";
    for (const id of OPTIONS) $(id).value = linked.get(id) ?? "";
    for (const box of kindBoxes()) box.checked = !linked.has("kinds") || linked.get("kinds").split(",").includes(box.value);
    take(linked.get("type"), linked.get("script"));
    if (Object.hasOwn(SEARCHES, linked.get("by"))) begin(linked.get("by"));
    return true;
}

async function copyLink() {
    const searched = state.design ? { by: state.by, ...Object.fromEntries(OPTIONS.map((id) => [id, $(id).value])), kinds: chosenKinds() } : {};
    const parts = Object.entries({ type: typeText(), script: scriptText(), ...searched }).filter(([, value]) => value);
    history.replaceState(null, "", `#${new URLSearchParams(parts)}`);
    $("linked").textContent = (await copied(location.href)) ? "The link is copied." : "The link is in the address bar.";
}

// ---- what is pressed and written

// calls a function a moment after the last change
function later(change) {
    let timer;
    return () => {
        clearTimeout(timer);
        timer = setTimeout(change, 150);
    };
}

function listen() {
    $("find").onclick = () => begin("find");
    $("synth").onclick = () => begin("synth");
    $("stop").onclick = () => state.searches.stop();
    for (const id of ["type", "script"]) watch($(id));
    $("savetype").onclick = () => save(`${nameOf(typeText())}.type`, typeText());
    $("save").onclick = () => save(`${nameOf(typeText())}.${state.file.end}`, state.file.text);
    $("savescript").onclick = () => save(`${nameOf(typeText())}.script`, scriptText());
    $("savepicture").onclick = () => save(`${nameOf(typeText())}.svg`, decodeURIComponent($("picture").src.replace(/^[^,]*,/, "")), "image/svg+xml");
    $("link").onclick = copyLink;
    $("codepart").ontoggle = showCode;
    $("language").onchange = showCode;
    $("copycode").onclick = copyCode;
    $("savecode").onclick = () => save(codeFile(), $("code").textContent);
    $("begin").onclick = () => {
        $("script").value = EMPTY_SCRIPT;
        showScript();
    };
    $("back").onclick = () => {
        const lines = scriptText().trimEnd().split("\n");
        if (lines.length > 1) $("script").value = `${lines.slice(0, -1).join("\n")}\n`;
        showScript();
    };
    $("script").oninput = later(showScript);
    const typed = later(showScript);
    $("type").oninput = () => {
        $("time").textContent = "";
        state.searches.stop(); // what is looked for is of the type as it was
        if (state.design) showDesign(undefined, "The type has changed: find a design again.", "soft");
        else typed();
    };
    $("examples").onchange = () => takeExample($("examples").value);
    $("pictureastext").parentElement.ontoggle = showPictureText;
    addEventListener("hashchange", takeLink);
    addEventListener("keydown", (event) => {
        if (event.key === "Enter" && (event.ctrlKey || event.metaKey) && !$("find").disabled) begin("find");
        if (event.key === "Escape") state.searches.stop();
    });
}

async function start() {
    try {
        [state.searches, state.quick] = await programs();
    } catch (error) {
        $("cannot").textContent += ` (${error.message})`;
        return;
    }
    $("cannot").hidden = true;
    $("main").hidden = false;
    $("examples").append(...Object.keys(examples).map((name) => element("option", { textContent: name })));
    listen();
    if (!takeLink()) takeExample($("examples").value);
    document.body.dataset.ready = "yes";
}

start();
