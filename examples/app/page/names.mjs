// What people write, as names of the type: these have at most 15 letters, digits, `_`, `.` and `-`.
//
// A short text is its own name, with `_` for a blank and `.` before the code of any other sign: "Olive oil" is Olive_oil. A longer one
// is said in parts, and its name is a hash of it: so two devices that write the same text mean the same thing.

const PART = 15;
const PARTS = 10;
// with this no short text begins: after its `.` come two digits of a code
const LONG = "..";

function written(text) {
    const escaped = encodeURIComponent(text).replace(/[_.!~*'()]/g, (sign) => `%${sign.charCodeAt(0).toString(16).toUpperCase()}`);
    return escaped.replaceAll("%20", "_").replaceAll("%", ".");
}

function read(name) {
    return decodeURIComponent(name.replaceAll("_", " ").replaceAll(".", "%"));
}

const tidy = (text) => text.normalize().toWellFormed().trim().replace(/\s+/g, " ");

export const isTooLong = (text) => written(tidy(text)).length > PART * PARTS;

// The name of a text, and the calls that say its parts.
export async function nameOf(text) {
    const whole = written(tidy(text));
    if (whole.length <= PART) return { name: whole, calls: [] };
    const hash = new Uint8Array(await crypto.subtle.digest("SHA-256", new TextEncoder().encode(whole)));
    const name = LONG + btoa(String.fromCharCode(...hash.slice(0, 9))).replaceAll("+", "-").replaceAll("/", "_");
    const parts = whole.match(/.{1,15}/g);
    return { name, calls: parts.map((part, at) => ["say", name + at, part]) };
}

// The text of a name. Who has the key of a list can write what this page never would; then the name itself is shown.
export function textOf(list, name) {
    let whole = name;
    if (name.startsWith(LONG)) {
        whole = "";
        for (let at = 0; at < PARTS && name.length < PART; at += 1) whole += list.textOf(name + at);
    }
    try {
        return read(whole) || name;
    } catch {
        return name;
    }
}
