// Elements of the page.

export const $ = (id) => document.getElementById(id);

export function element(name, properties = {}, ...inner) {
    const made = document.createElement(name);
    for (const [key, value] of Object.entries(properties)) {
        if (key.startsWith("aria-") || key === "role") made.setAttribute(key, value);
        else made[key] = value;
    }
    made.append(...inner);
    return made;
}

export const button = (label, press, properties = {}) => element("button", { type: "button", textContent: label, onclick: press, ...properties });

// a table with a title for those who can't see it, and a row of heads
export const table = (caption, heads, rows) =>
    element(
        "table",
        {},
        element("caption", { className: "unseen", textContent: caption }),
        element("thead", {}, element("tr", {}, ...heads.map((head) => element("th", { scope: "col", textContent: head })))),
        element("tbody", {}, ...rows),
    );

// gives a file to whoever presses
export function save(name, text, type = "text/plain") {
    const link = element("a", { href: URL.createObjectURL(new Blob([text], { type })), download: name });
    link.click();
    setTimeout(() => URL.revokeObjectURL(link.href), 10_000);
}

// puts a text on the clipboard; whether the browser lets it
export const copied = async (text) => (await navigator.clipboard?.writeText(text).then(() => true, () => false)) ?? false;
