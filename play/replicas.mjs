// The replicas of a script and the packets on their way, as parts of the page. What is pressed goes to `act`, with the lines that it adds.
import { button, element, table } from "./dom.mjs";
import { ACTIONS } from "./script.mjs";

function fieldOf(sort, label) {
    if (sort === "bool") return element("select", { "aria-label": label }, element("option", { textContent: "true" }), element("option", { textContent: "false" }));
    if (sort === "name") return element("input", { value: "milk", maxLength: 15, pattern: "[\\w.\\-]*", "aria-label": label });
    return element("input", { type: "number", value: 1, ...(sort === "nat" ? { min: 0 } : {}), "aria-label": label });
}
const writtenOf = (sort, { value }) => (sort === "name" ? `"${value.replace(/[^\w.-]/g, "")}"` : value || "0");

// the form of an operation, which keeps what was written there
function operationForm(name, sorts, replica, act) {
    const fields = sorts.map((sort, i) => fieldOf(sort, `${name}, ${sort} ${i + 1}`));
    const operation = () => [name, ...fields.map((field, i) => writtenOf(sorts[i], field))].join(" ");
    const form = element("form", { className: "operation" }, element("span", { textContent: name }), ...fields, element("button", { textContent: "do", "aria-label": `do ${name} at replica ${replica}` }));
    form.onsubmit = (event) => {
        event.preventDefault();
        act((network, shipped) => ACTIONS.operate(network, replica, operation(), shipped));
    };
    return form;
}

// The panel of a replica: forms, buttons, and places for what changes.
export function replicaPanel(replica, [operations], act) {
    const offline = element("input", { type: "checkbox", onchange: () => act((network) => (offline.checked ? ACTIONS.offline : ACTIONS.online)(network, replica)) });
    const ship = button("ship its state", () => act((network) => ACTIONS.ship(network, replica)), { "aria-label": `ship the state of replica ${replica}` });
    const answers = element("div");
    const operationsTitle = element("summary");
    const operationsReached = element("pre");
    const state = element("pre");
    const panel = element(
        "section",
        { className: "replica", id: `replica${replica}`, "aria-label": `replica ${replica}` },
        element("h3", { textContent: `Replica ${replica}` }),
        element("div", { className: "row" }, element("label", {}, offline, " offline"), ship),
        ...operations.map(([name, sorts]) => operationForm(name, sorts, replica, act)),
        answers,
        element("details", {}, operationsTitle, operationsReached),
        element("details", {}, element("summary", { textContent: "what it keeps" }), state),
    );
    const show = (end, network) => {
        offline.checked = network.offline.has(replica);
        ship.disabled = offline.checked;
        const reached = [...(network.reached.get(replica) ?? [])];
        operationsTitle.textContent = `${counted(reached.length)} reached it`;
        operationsReached.textContent = reached.map(([at, ...call]) => `${call.join(" ")}, at replica ${at}`).join("\n") || "none";
        if (!end) return;
        answers.replaceChildren(answerTable(`answers of replica ${replica}`, ["query", "it answers", "the type"], end.answers));
        state.textContent = end.state ?? "";
    };
    return { panel, show };
}

const counted = (count) => `${count} operation${count === 1 ? "" : "s"}`;

// answers of a design beside those of the type
export const answerTable = (caption, heads, answers) => table(caption, heads, answers.map(answerRow));

function answerRow({ replica, question, design, type }) {
    const asked = element("td", { textContent: replica && question ? question : "" });
    if (design === undefined) return element("tr", {}, asked, element("td"), element("td", { textContent: type }));
    const same = design === type;
    const mark = element("span", { className: same ? "good" : "bad", textContent: same ? " ✓" : " ✗", title: same ? "the same" : "another answer" });
    return element("tr", {}, asked, element("td", { textContent: design }), element("td", {}, type, mark));
}

// The packets on their way, each with what can be done to it.
export function packetList(network, act) {
    const { waiting, offline } = network;
    if (!waiting.length) return [element("p", { className: "soft", textContent: "Nothing is on its way." })];
    const items = waiting.map((it) => {
        const name = `${it.packet} to replica ${it.to}`;
        const away = offline.has(it.to);
        const one = (label, action, properties = {}) => button(label, () => act((now) => action(now, it)), { "aria-label": `${label}: ${name}`, ...properties });
        return element(
            "li",
            {},
            element("span", { textContent: `${it.packet}: ${it.from} → ${it.to}, ${counted(it.operations.length)}${away ? ", waits until it is online" : ""}` }),
            one("deliver", ACTIONS.deliver, { disabled: away }),
            one("deliver, keep a copy", ACTIONS.deliverAndKeep, { disabled: away }),
            one("lose", ACTIONS.lose),
        );
    });
    const all = button("deliver all", () => act(ACTIONS.deliverAll), { id: "deliverall", disabled: waiting.every(({ to }) => offline.has(to)) });
    return [element("ul", { className: "packets" }, ...items), all];
}
