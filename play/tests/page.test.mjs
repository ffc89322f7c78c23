// The parts of the page that need no browser: what scripts say, refusals and their places, answers, drawings, languages, searches by size.
import assert from "node:assert/strict";
import { readFileSync } from "node:fs";
import test from "node:test";
import { answersOf, askedScript, questionsOf } from "../answers.mjs";
import { LANGUAGES } from "../languages.mjs";
import { fitted } from "../picture.mjs";
import { refusalOf } from "../refusal.mjs";
import { ACTIONS, linesOf, networkOf, newPacket } from "../script.mjs";
import { bySizes } from "../sizes.mjs";

const network = (...lines) => networkOf(linesOf(["replicas 3", ...lines].join("\n")));
const ways = ({ waiting }) => waiting.map(({ packet, from, to }) => `${packet} ${from}${to}`).join(", ");

test("lines, with comments, names and signs", () => {
    assert.deepEqual(linesOf('replicas 2 # two\n\n  do 1 add"a.b"-2\n# offline 1\n# lose p1 2\n# a note\n'), [
        ["replicas", "2"],
        ["do", "1", "add", '"a.b"', "-", "2"],
        ["#offline", "1"],
        ["#lose", "p1", "2"],
    ]);
});

test("packets on their way", () => {
    assert.equal(ways(network("ship 2 p")), "p 21, p 23");
    assert.equal(ways(network("ship 2 p", "deliver p 1")), "p 23");
    assert.equal(ways(network("ship 2 p", "deliver p 1", "deliver p 1")), "p 23", "a copy that isn't on its way may come all the same");
    assert.equal(ways(network("ship 2 p", "# lose p 3", "# double p 1")), "p 21, p 21");
    assert.equal(ways(network("ship 2 p", "ship 3 q", "ship 1 p")), "q 31, q 32, p 12, p 13", "a word that is used again names the new packet");
    assert.equal(ways(networkOf(linesOf("replicas 40\nship 1 p"))), "");
});

test("what a replica hasn't shipped", () => {
    assert.deepEqual([...network("do 1 inc", "ship 1 p", "deliver p 2").changed], [2]);
    assert.deepEqual([...network("# offline 2", "# offline 3", "# online 2").offline], [3]);
});

test("which operations reached a replica", () => {
    const at = (replica, ...lines) => [...network(...lines).reached.get(replica)].map((it) => it.join(" "));
    assert.deepEqual(at(2, "do 1 inc", "ship 1 p", "do 1 dec", "deliver p 2"), ["1 inc"], "not what was done after the packet was shipped");
    assert.deepEqual(at(3, "do 1 inc", "ship 1 p", "do 2 inc", "deliver p 2", "deliver p 2", "ship 2 q", "deliver q 3"), ["2 inc", "1 inc"], "by another replica, and once");
    assert.equal(network("do 1 inc", "do 1 inc", "ship 1 p").waiting[0].operations.length, 2, "of two alike");
    assert.equal(network("do 9 inc", "ship 9 p").waiting.length, 3, "a replica that isn't there has none");
});

test("words for packets", () => {
    assert.equal(newPacket(network()), "p1");
    assert.equal(newPacket(network("ship 1 p1", "ship 2 other")), "p2");
    const all = Array.from({ length: 32 }, (_, i) => `ship 1 p${i + 1}`);
    assert.equal(newPacket(network(...all, "# lose p4 2", "# lose p4 3")), "p4", "the oldest of which nothing is on its way");
    assert.equal(newPacket(network(...all)), "p1");
});

test("the lines of actions", () => {
    const there = network("do 2 inc", "# offline 2");
    assert.deepEqual(ACTIONS.operate(there, 1, "inc", true), ["do 1 inc", "ship 1 p1"]);
    assert.deepEqual(ACTIONS.operate(there, 2, "inc", true), ["do 2 inc"], "what is offline ships nothing");
    assert.deepEqual(ACTIONS.operate(there, 1, "inc", false), ["do 1 inc"]);
    assert.deepEqual(ACTIONS.online(there, 2), ["# online 2", "ship 2 p1"]);
    assert.deepEqual(ACTIONS.online(network("# offline 3"), 3), ["# online 3"]);
    assert.deepEqual(ACTIONS.deliverAll(network("ship 1 p", "# offline 2")), ["deliver p 3"]);
});

test("refusals, and their places", () => {
    const text = "type t\nstate name: nät = 0\n";
    assert.deepEqual(refusalOf("type: BadByte 1 at byte 20\n", "type", text), { why: "a character that can't be here", row: 2, from: 20, to: 21 });
    assert.deepEqual(refusalOf("type: Unknown 5 at byte 24\n", "type", text), { why: "a word that nothing declares", row: 2, from: 23, to: 24 }, "bytes, not characters");
    assert.deepEqual(refusalOf("script: Late 13 at line 2 clock 7\n", "script", "a\nbcd\n"), { why: "a time that isn't later than the replica's clock", row: 2, from: 2, to: 5 });
    assert.equal(refusalOf("type: FileLong 20\n", "type", "x").row, 1);
    assert.equal(refusalOf("type: Syntax 4 at byte 0\n", "script", text), undefined, "of another file");
    assert.equal(refusalOf("undecided\n", "type", text), undefined);
});

const signature = [[["add", ["name", "int"]]], [["count", ["name"], "int"], ["total", [], "int"]]];

test("questions, with the script's constants", () => {
    const lines = linesOf('replicas 2\ndo 1 add "a" -5\ndo 1 add "b" 7\nask 1 count "c"\n');
    assert.deepEqual(questionsOf(lines, signature), ['count "a"', 'count "b"', 'count "c"', "total"]);
    assert.deepEqual(questionsOf(linesOf("replicas 2"), signature), ['count "milk"', "total"]);
    const many = Array.from({ length: 20 }, (_, i) => `do 1 add "n${i}" 1`).join("\n");
    assert.equal(questionsOf(linesOf(`replicas 1\n${many}`), signature).length, 9);
});

test("answers of the design and of the type", () => {
    const script = "replicas 1\nask 1 total\nshow 1\n";
    assert.equal(askedScript(script, [1], ["total"]), "replicas 1\nask 1 total\nshow 1\nask 1 total\nshow 1\n");
    const run = "1 total = 3\n1 clock 1 [[3]]\n1 total = 4\n1 clock 2 [[4]]\n";
    const told = answersOf(linesOf(script), [1], ["total"], "1 total = 3\n1 total = 5\n", run);
    assert.deepEqual(told.asked, [{ replica: 1, question: "total", type: "3", design: "3" }]);
    assert.deepEqual(told.ends, [{ replica: 1, answers: [{ replica: 1, question: "total", type: "5", design: "4" }], state: "[[4]]" }]);
    assert.equal(answersOf(linesOf(script), [], [], "1 total = 3\n").asked[0].design, undefined);
});

test("a drawing is as wide as its texts", () => {
    const svg = (text) => `<svg width='100' height='50' viewBox='0 0 100 50'><text class='ask-text' x='52' y='9'>${text}</text></svg>`;
    assert.equal(fitted(svg("1")), svg("1"));
    assert.match(fitted(svg("count &#34;milk&#34; = 5")), /width='188' height='50' viewBox='0 0 188 50'/);
});

test("each language of `emit` has a name and an end of files", () => {
    const written = readFileSync(new URL("../../crates/kat_emit_words/src/languages.rt", import.meta.url), "utf8");
    const words = [...written.matchAll(/"(\w+)" => Some\(Language::/g)].map(([, word]) => word);
    assert.ok(words.length >= 3);
    assert.deepEqual(words.filter((word) => !LANGUAGES.some((it) => it.word === word && it.name && it.end)), []);
    assert.equal(new Set(LANGUAGES.map(({ end }) => end)).size, LANGUAGES.length);
});

test("a search size by size", async () => {
    // the sizes that are searched, if each ends with such a status
    const searched = async (greatest, ...statuses) => {
        const [sizes, told] = [[], []];
        const said = await bySizes(
            greatest,
            async (size) => {
                sizes.push(size);
                const status = statuses[sizes.length - 1];
                return status === undefined ? undefined : { status, size };
            },
            (size, last) => told.push(`${size} of ${last}`),
        );
        return [sizes.join(" "), told.at(-1), said?.size];
    };
    assert.deepEqual(await searched("3", 4, 5, 4), ["1 2 3", "3 of 3", "3"], "up to the greatest");
    assert.deepEqual(await searched("", 4, 4, 0), ["1 2 3", "3 of 5", 3], "until a design is found");
    assert.deepEqual(await searched("9", 4, 6, 6), ["1 2 9", "9 of 9", "9"], "what a limit stops is told by one call");
    assert.deepEqual(await searched("9", 4), ["1 2", "2 of 9", undefined], "until somebody stops it");
    assert.deepEqual(await searched("25", 1), ["25", "25 of 25", "25"], "a size that can't be is refused at once");
});
