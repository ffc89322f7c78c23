// Draws a list. Rows stay the same elements as long as their thing is there, so that who is about to press a button presses that one.
import { textOf } from "./names.mjs";

const at = (id) => document.getElementById(id);
const { compare } = new Intl.Collator();

function element(name, properties, ...children) {
    const made = Object.assign(document.createElement(name), properties);
    made.append(...children);
    return made;
}

// What is shown of a list: the things of which more than none is wanted.
export function contentOf(list) {
    const things = list
        .addKeys()
        .map((name) => ({ name, amount: list.amount(name), ticked: list.isTicked(name) }))
        .filter(({ amount }) => amount > 0n)
        .map((it) => ({ ...it, text: textOf(list, it.name) }));
    things.sort((a, b) => compare(a.text, b.text) || (a.name < b.name ? -1 : 1));
    const title = list.titleNow();
    return { title: title && textOf(list, title), things };
}

function row({ name }, act) {
    const [box, text, less, amount, more] = [
        element("input", { type: "checkbox", onchange: () => act.tick(name, box.checked) }),
        element("span", { className: "text" }),
        element("button", { type: "button", textContent: "−", onclick: () => act.take(name) }),
        element("output", { className: "amount" }),
        element("button", { type: "button", textContent: "+", onclick: () => act.add(name) }),
    ];
    const made = element("li", {}, element("label", {}, box, text), less, amount, more);
    let drawn = {};
    made.draw = (it) => {
        // as most rows: a list of 1,000 things is drawn anew in a moment
        if (it.amount === drawn.amount && it.text === drawn.text && it.ticked === box.checked) return;
        drawn = it;
        box.checked = it.ticked;
        text.textContent = it.text;
        amount.textContent = String(it.amount);
        less.ariaLabel = it.amount > 1n ? `One less of ${it.text}` : `Remove ${it.text}`;
        more.ariaLabel = `One more of ${it.text}`;
    };
    return made;
}

const rows = { wanted: new Map(), ticked: new Map() };

function drawRows(id, things, act) {
    const [place, kept, left] = [at(id), rows[id], new Set(rows[id].keys())];
    things.forEach((it, index) => {
        left.delete(it.name);
        if (!kept.has(it.name)) kept.set(it.name, row(it, act));
        const one = kept.get(it.name);
        one.draw(it);
        if (place.children[index] !== one) place.insertBefore(one, place.children[index] ?? null);
    });
    for (const name of left) {
        kept.get(name).remove();
        kept.delete(name);
    }
}

export function drawList({ title, things }, act) {
    if (document.activeElement !== at("title")) at("title").value = title;
    document.title = title || "Shopping list";
    const ticked = things.filter((it) => it.ticked);
    drawRows("wanted", things.filter((it) => !it.ticked), act);
    drawRows("ticked", ticked, act);
    at("done").hidden = ticked.length === 0;
    at("nothing").hidden = things.length > 0;
}

export function drawHome(lists) {
    at("lists").replaceChildren(
        ...lists.map(([key, list]) => {
            const { title, things } = contentOf(list);
            const open = things.filter((it) => !it.ticked).length;
            return element("li", {}, element("a", { href: `#${key}` }, element("span", { className: "text", textContent: title || "Shopping list" }), element("span", { className: "amount", textContent: open ? `${open} wanted` : "all done" })));
        }),
    );
}

const STATUS = {
    sending: "Kept here, and on its way to the others.",
    sent: "Everything is kept here and has been sent.",
    offline: "No connection. What you change is kept here and sent later.",
    joining: "Asking the server for this list.",
    absent: "This device doesn't have the list yet. It needs a connection once.",
    full: "This device has no room left, so what the others changed isn't kept here. Please free some.",
};

export function drawStatus(status) {
    const [, refusal] = /^refused: (.*)/s.exec(status) ?? [];
    const text = refusal ? `The server refuses this: ${refusal}.` : STATUS[status];
    // what is told again isn't read aloud again
    if (at("status").textContent !== text) at("status").textContent = text;
    at("status").dataset.status = status;
}

export function drawProblem(text) {
    at("problem").textContent = text;
    at("problem").hidden = !text;
}
