// The editors of the page. What is refused in a text is marked at its place, and told below.
import { button, element } from "./dom.mjs";

// (it has the same text as the editor, unseen, and is below it)
const marksOf = (editor) => editor.previousElementSibling;

function mark(editor, refusal) {
    const text = editor.value;
    const parts = refusal ? [text.slice(0, refusal.from), element("mark", { textContent: text.slice(refusal.from, refusal.to) }), text.slice(refusal.to)] : [];
    marksOf(editor).replaceChildren(...parts, "\n");
    marksOf(editor).scrollTop = editor.scrollTop;
}

function select(editor, { from, to }) {
    editor.focus();
    editor.setSelectionRange(from, to);
    const marked = marksOf(editor).querySelector("mark");
    if (marked) editor.scrollTop = marked.offsetTop - editor.clientHeight / 2;
}

// tells a refusal in `into`, or that there is none, and selects its place if somebody waits for it
export function tellRefusal(refusal, editor, into, selected = false) {
    const told = refusal ? `Line ${refusal.row}: ${refusal.why}. ` : "";
    editor.setAttribute("aria-invalid", Boolean(refusal));
    mark(editor, refusal);
    // (what is told already isn't told again to those who listen)
    if (!into.textContent.startsWith(told) || !told) into.replaceChildren(...(told ? [told, button("Go there", () => select(editor, refusal))] : []));
    else into.querySelector("button").onclick = () => select(editor, refusal);
    if (refusal && selected) select(editor, refusal);
}

export function watch(editor) {
    editor.addEventListener("input", () => mark(editor)); // until it is judged anew
    editor.addEventListener("scroll", () => (marksOf(editor).scrollTop = editor.scrollTop));
}
