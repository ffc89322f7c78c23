// The questions that the page asks of each replica at the end of a script, and what the design and the type answer.

const MOST_QUESTIONS = 8; // of one query
const ONE_OF = { name: '"milk"', bool: "true", nat: "1", int: "1" };

// the constants of each sort with which the script calls operations and queries
function constantsOf(lines, [operations, queries]) {
    const found = { name: new Set(), bool: new Set(), nat: new Set(), int: new Set() };
    for (const [head, , name, ...rest] of lines) {
        const called = head === "do" ? operations : head === "ask" ? queries : [];
        const sorts = called.find(([it]) => it === name)?.[1] ?? [];
        // (a minus is a word of its own)
        const values = rest.join(" ").replace(/- (?=\d)/g, "-").split(" ");
        sorts.forEach((sort, i) => values[i] && found[sort].add(values[i]));
    }
    for (const [sort, one] of Object.entries(ONE_OF)) if (!found[sort].size) found[sort].add(one);
    return found;
}

// each query with each list of such constants, at most so many
export function questionsOf(lines, signature) {
    const found = constantsOf(lines, signature);
    const listed = (sorts) => sorts.reduce((lists, sort) => lists.flatMap((list) => [...found[sort]].map((it) => [...list, it])).slice(0, MOST_QUESTIONS), [[]]);
    return signature[1].flatMap(([name, sorts]) => listed(sorts).map((values) => [name, ...values].join(" ")));
}

// the script, and then each question and the state of each replica
export const askedScript = (script, replicas, questions) =>
    [script.trimEnd(), ...replicas.flatMap((replica) => [...questions.map((it) => `ask ${replica} ${it}`), `show ${replica}`]), ""].join("\n");

const valueOf = (line) => line?.slice(line.lastIndexOf(" = ") + 3);
const printed = (output) => output.split("\n").filter(Boolean);

/**
 * What `model` and `run` printed of such a script, ask by ask: {replica, question, type, design} each, those of the script itself first
 * (`asked`), and then those of each replica with its state (`ends`). `design` is left out if `run` printed nothing.
 */
export function answersOf(lines, replicas, questions, model, run) {
    const ofType = printed(model)[Symbol.iterator]();
    const ofDesign = printed(run ?? "")[Symbol.iterator]();
    const next = (from) => from.next().value;
    const answer = () => {
        const line = next(ofType) ?? "";
        const [replica, question] = [line.split(" ", 1)[0], line.slice(line.indexOf(" ") + 1, line.lastIndexOf(" = "))];
        return { replica: Number(replica), question, type: valueOf(line), design: valueOf(next(ofDesign)) };
    };
    const asked = [];
    for (const [head] of lines) {
        if (head === "ask") asked.push(answer());
        if (head === "show") next(ofDesign);
    }
    const ends = replicas.map((replica) => ({ replica, answers: questions.map(answer), state: next(ofDesign)?.replace(/^\d+ clock \d+ /, "") }));
    return { asked, ends };
}
