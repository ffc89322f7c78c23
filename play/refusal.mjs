// What the program says of a file that it refuses, in words, and the place in its text.

const WHY = {
    BadByte: "a character that can't be here",
    LongName: "a word or a name of more than 15 bytes",
    LongNumber: "a number above 1000000000000",
    Syntax: "this can't come here",
    Unknown: "a word that nothing declares",
    Twice: "a word that was declared before",
    WrongSort: "a value of another sort belongs here",
    RankMismatch: "ranks that can't be compared with one another",
    TooLarge: "more than the limits allow",
    NoReplica: "there is no such replica",
    NoPacket: "no packet of this name was shipped before",
    Late: "a time that isn't later than the replica's clock",
    BadCall: "no such operation or query, or other arguments",
    FileLong: "a file of more than 16,777,216 bytes",
};

// how many characters of a text its first bytes are
const charactersOf = (text, bytes) => new TextDecoder().decode(new TextEncoder().encode(text).subarray(0, bytes)).length;

// The refusal of the file `name` in what went to standard error: {why, row, from, to} with the place in `text`; nothing if it is none.
export function refusalOf(errors, name, text) {
    const said = errors.trim();
    const [, fault, , unit, number] = /^(\w+) (\d+)(?: at (byte|line) (\d+))?/.exec(said.startsWith(`${name}: `) ? said.slice(name.length + 2) : "") ?? [];
    if (!fault) return undefined;
    let [from, to] = [0, 0];
    if (unit === "byte") {
        from = charactersOf(text, Number(number));
        to = from + (/^(?:\w+|"[^"\n]*"?|:=|<=|->|[^\s])/.exec(text.slice(from))?.[0].length ?? 0);
    } else if (unit === "line") {
        const lines = text.split("\n");
        from = lines.slice(0, Number(number) - 1).reduce((sum, line) => sum + line.length + 1, 0);
        to = from + (lines[Number(number) - 1]?.length ?? 0);
    }
    return { why: WHY[fault] ?? fault, row: text.slice(0, from).split("\n").length, from: Math.min(from, text.length), to: Math.min(to, text.length) };
}
