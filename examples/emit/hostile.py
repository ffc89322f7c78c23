#!/usr/bin/env python3
"""hostile.py PROGRAM COUNT FOLDER: draws types with designs whose words are hostile to code, for `check` and `beside.py`.

A word is one that some language keeps, one that the code of `emit` uses, or one that differs from another by capitals or `_` alone; comments
have what ends a comment somewhere. A type has up to four groups of fields, each kept in one component: greatest values, names and truth values
under a shape that is drawn (`lex` over time and replica, `pair` as deep as it comes), in a cell or a table, a set, or sums; operations that
change one or two groups, with parameters that nothing reads among theirs; and queries that answer fields, compare and add them. `PROGRAM prove`
writes the design with its proof; what it doesn't prove is drawn anew. FOLDER/hN/hN.type and FOLDER/hN/hN.design come of it, N from 1 to COUNT.
What is drawn depends on SEED (1) alone.
"""
import json
import os
import random
import subprocess
import sys

RESERVED = set("type state table op rank query if then else or and not max min true false bool int nat name time replica at clear".split())
WORDS = """
as async await break case catch class const continue crate debugger default defer del delete do dyn elif enum eval except export extends extern
fallthrough False final finally fn for from func function gen global go goto impl implements import in instanceof interface is lambda let loop
macro map match mod move mut namespace new nil None nonlocal null of override package pass priv private protected pub public raise range ref
return Self self select static struct super switch this throw trait True try typeof undefined union unsafe unsized use using var virtual void
where while with yield abstract arguments become box chan int8 readonly declare module require any unknown never symbol object keyof infer
constructor prototype __proto__ __init__ __new__ __eq__ __hash__ __class__ __dict__ __slots__ hasOwnProperty toString valueOf toJSON toLocaleString
length name_ caller callee apply bind call then_ Object Map Set Array String Number BigInt Boolean Symbol Error JSON Math Promise Proxy Reader
Sums Problem Infinity NaN globalThis process exports print len sum sorted dict list tuple set str repr hash id iter next open property
staticmethod classmethod dataclass field NamedTuple Callable Iterator TypeVar Any Exception ValueError isinstance super_ object_ re json Key Value
Vec Option Result Some Ok Err Box Copy Clone Drop Eq Ord Hash Debug Default Iterator_ From Into BTreeMap BTreeSet String_ i64 u64 usize u8 char
core std alloc vec format println panic assert drop fmt eq ne cmp hash_ clone_from borrow to_owned to_string into from_str try_from type_id
append cap close complex copy imag iota make panic_ real recover error rune byte uint8 int64 float64 init main string strings sort strconv errors
math bits testing New FromState Equal Clone_ Merge State Clock Replica Difference Error_ ErrArgument ErrReplica ErrClock ErrSum ErrState ErrRange
merge difference state_ from_state fromState clone equals clock replica_ fresh keys known other it key value item parts sums changed own more
reader mark text first second before after old now total grown raise_sums raiseSums sums_beyond sumsBeyond check_name checkName next_time
nextTime take end refuse head entries read_sums readSums ascending keysText entriesText sumsText sumsAt entries_text LARGEST LATEST LIMIT limit
a A a_ _a __a aB a_b A_b AB Ab ab aB_ a__b x1 X1 x_1 x1_ x_01 _ __ ___ _9 o O l I HTTPServer HttpServer http_server httpServer x X T K V
abcdefghijklmno abcdefghijklmnO Abcdefghijklmno aaaaaaaaaaaaaaa aaaaaaaaaaaaaa_ a_a_a_a_a_a_a_a zzzzzzzzzzzz_zz is_open isOpen IsOpen to_text as_ref
into_inner from_text is_empty len_ add sub not_ neg mul index deref next_ borrow_mut as_mut index_mut into_iter marks share packet from_share
fromShare merge_packet mergePacket note_time noteTime joined_marks joinedMarks known_marks marks_text marksText read_marks readMarks first_line
firstLine marked line rest base told gap Marks Share Packet MergePacket FromShare ErrGap ErrMarks add_assign add_less add_lacks add_start add_joined add_value add_keys add_sum
""".split()
WORDS = sorted({word for word in WORDS if len(word) <= 15} - RESERVED)
COMMENTS = [
    "*/ ends a comment, and so does this: */ or */*/", '""" ends a docstring, \'\'\' too', "a backslash at the end \\", "a quote at the end \"",
    "\u2028 ends a line, \u202e turns it, \u0000 is nothing, \u00e9 is a letter, \u2603 is none", "${this} `and` {that} %s {{}} $0 ~ $1",
    "//! /// /* # -- <!-- -->", "a line that is very long: " + "word " * 60, "", "@ts-ignore type: ignore noqa #[allow(x)]",
    "[a link] and [another](one) and [one]: more [^1] ![x] [`x`]", "<b> a tag <script> Vec<T> <http://x.y>, see https://example.org/a_b.",
    "`code` and (`more code`), `` ` ``", "an accent ` alone", "``` rust", "`a``b`[c]",
]  # fmt: skip
# what begins a list, a quote, a title, a block of code, a test or an instruction to a tool, if a line of a comment begins with it
MARKS = """- + * > >>> # ## ~~~ ~~~~rust = === --- _ *** | |---|---| :---|---: 1. 1) <div> <!-- [x]: [^1]: @ts-expect-error @deprecated type: type:ignore
+build :param -5 +x""".split()
COMMENTS += [f"{mark} at the start" for mark in MARKS]
# each after a line that is full
COMMENTS += [" ".join(word for mark in MARKS[start : start + 4] for word in ("w" * 108, mark, "more")) for start in range(0, len(MARKS), 4)]
KEYS, NUMBERS = ["int", "nat", "name"], ["int", "nat"]


def variant(rnd, word):
    """Another word that a language's case may make the same."""
    kind = rnd.randrange(6)
    if kind < 3:
        made = [word.lower, word.upper, word.capitalize][kind]()
    else:
        made = [word + "_", "_" + word, word.replace("_", "") or word][kind - 3]
    return made if len(made) <= 15 and made not in RESERVED and not made[0].isdigit() else word


class Words:
    """Draws words that are all different in a scope."""

    def __init__(self, rnd):
        self.rnd, self.drawn = rnd, []

    def new(self, *taken):
        while True:
            word = self.rnd.choice(WORDS)
            if self.drawn and self.rnd.random() < 0.4:
                word = variant(self.rnd, self.rnd.choice(self.drawn))
            if all(word not in it for it in taken):
                self.drawn.append(word)
                return word


def shape_of(rnd, depth):
    """A shape of values, with the sorts of its leaves."""
    if depth > 0 and rnd.random() < 0.5:
        (one, ones), (other, others) = shape_of(rnd, depth - 1), shape_of(rnd, depth - 1)
        return ["pair", one, other], ones + others
    sort = rnd.choice(["bool", "name", "int", "nat"])
    return {"bool": "or", "name": "name"}.get(sort, "max"), [sort]


START = {"bool": False, "name": "", "int": 0, "nat": 0}


class Group:
    """Fields that one component, or the two of signed sums, keeps: `fields` are words with sorts, `key` is the sort of their keys if any."""

    def __init__(self, rnd, words, fields, ranked):
        self.kind = rnd.choice(["join", "join", "set", "tally", "signed"] + ["last"] * (3 * ranked))
        self.key = rnd.choice(KEYS) if self.kind == "set" or rnd.random() < 0.5 else None
        if self.kind in ("join", "last"):
            self.shape, self.sorts = shape_of(rnd, 2)
        else:
            self.sorts = [{"set": "bool", "tally": "nat", "signed": "int"}[self.kind]]
        self.starts = [START[it] for it in self.sorts]
        if self.kind == "last":
            self.shape = ["lex", "max", ["lex", "max", self.shape]]
        elif self.kind == "join":
            self.starts = [rnd.choice([it, -5 if sort == "int" else 3]) if sort in NUMBERS else it for it, sort in zip(self.starts, self.sorts)]
        self.fields = []
        for _ in self.sorts:
            self.fields.append(words.new(fields))
            fields.append(self.fields[-1])

    def states(self):
        sorted_as = lambda sort: f"table {self.key} -> {sort}" if self.key else sort
        return [f"state {word}: {sorted_as(sort)} = {json.dumps(start)}" for word, sort, start in zip(self.fields, self.sorts, self.starts)]

    def components(self):
        """The components without their effects, and what follows these."""
        if self.kind == "set":
            return [["set", self.key]]
        if self.kind in ("tally", "signed"):
            return [["tallies", self.key] if self.key else ["tally"] for _ in range(1 + (self.kind == "signed"))]
        starts = [0, 0] * (self.kind == "last") + self.starts
        return [["table", self.key, self.shape, starts] if self.key else ["cell", self.shape, starts]]

    def params(self):
        """The sorts of what an operation gives to it."""
        return ([self.key] if self.key else []) + ([] if self.kind == "set" else self.sorts)

    def effects(self, first):
        """What an operation gives to the components whose parameter for it have the numbers from `first` on."""
        at = first + (self.key is not None)
        if self.kind == "set":
            return [f"p{first}"]
        if self.kind in ("tally", "signed"):
            weights = [f"p{at}"] if self.kind == "tally" else [f"pos{at}", f"neg{at}"]
            return [[f"p{first}", it] if self.key else it for it in weights]
        leaves = ["time", "replica"] * (self.kind == "last") + [f"p{at + i}" for i in range(len(self.sorts))]
        return [[f"p{first}", leaves] if self.key else leaves]

    def assigns(self, params):
        at = f"[{params[0]}]" if self.key else ""
        given = params[1:] if self.key else params
        form = {"set": "{0} := true", "tally": "{0} := {0} + {1}", "signed": "{0} := {0} + {1}", "last": "{0} := {1}"}
        join = lambda sort: "{0} := {0} or {1}" if sort == "bool" else "{0} := max({0}, {1})"
        values = zip(self.fields, self.sorts, given or [""])
        return [form.get(self.kind, join(sort)).format(word + at, value) for word, sort, value in values]

    def leaves(self, component):
        """Of each field, what asks for it in the query's key."""
        key = [0] if self.key else []
        if self.kind == "signed":
            return [["-", ["leaf", component, 0, *key], ["leaf", component + 1, 0, *key]]]
        return [["leaf", component, i + 2 * (self.kind == "last"), *key] for i in range(len(self.sorts))]


def operation(rnd, words, groups, fields, called, number, ranked):
    """A line for an operation, its signature, and the effects on each group's components."""
    chosen = sorted(rnd.sample(range(len(groups)), min(len(groups), 1 + (rnd.random() < 0.3))))
    if number < len(groups):
        chosen = sorted({number, *chosen})
    while sum(len(groups[it].params()) for it in chosen) > 4 and len(chosen) > 1:
        chosen.remove(next(it for it in chosen if it != number))
    sorts, params, assigns, effects = [], [], [], [[None] * len(it.components()) for it in groups]
    for at in chosen:
        group = groups[at]
        names = []
        for _ in group.params():
            names.append(words.new(fields, params, names))
        assigns += group.assigns(names)
        effects[at] = group.effects(len(params))
        sorts += group.params()
        params += names
    if len(params) < 4 and rnd.random() < 0.3:
        params.append(words.new(fields, params))
        sorts.append(rnd.choice(["bool", "int", "nat", "name"]))
    word = words.new(called)
    called.append(word)
    given = ", ".join(f"{name}: {sort}" for name, sort in zip(params, sorts))
    rank = "time, replica" if ranked else "0"
    return f"op {word}({given}) rank {rank}: {'; '.join(assigns)}", [word, sorts], effects


def compared(rnd, one, other, sort, more):
    """A query's expression over two terms of a sort, its sort, and its ask: each term is its text and its ask."""
    (a, x), (b, y) = one, other
    if sort == "bool":
        return rnd.choice([(f"{a} and {b}", "bool", ["and", x, y]), (f"{a} or not {b}", "bool", ["or", x, ["not", y]])])
    below = (f"{a} < {b}", "bool", ["<", x, y])
    if sort == "name":
        return below
    return rnd.choice([below, (f"{a} <= {b}", "bool", ["not", ["<", y, x]]), (f"{a} + {b}", more, ["+", x, y]), (f"{a} - {b}", "int", ["-", x, y])])


def queries_of(rnd, words, groups, fields, called):
    """Lines of queries, with signatures and asks: each field, and some that compare or add two."""
    found, component, terms = [], 0, []
    for group in groups:
        terms += [(word, sort, group.key, ask) for word, sort, ask in zip(group.fields, group.sorts, group.leaves(component))]
        component += len(group.components())
    for one in terms:
        key = words.new(fields)
        found.append((one[0] + (f"[{key}]" if one[2] else ""), one[1], [(key, one[2])] if one[2] else [], one[3]))
    for _ in range(rnd.randint(0, 3)):
        one = rnd.choice(terms)
        alike = [it for it in terms if (it[1] == one[1] or {it[1], one[1]} <= set(NUMBERS)) and it[2] in (one[2], None)]
        other = rnd.choice([it for it in alike if it is not one] or terms)
        if other is one or other not in alike:
            continue
        key = words.new(fields)
        texts = [it[0] + (f"[{key}]" if it[2] else "") for it in (one, other)]
        more = "nat" if one[1] == other[1] == "nat" else "int"
        text, sort, ask = compared(rnd, (texts[0], one[3]), (texts[1], other[3]), one[1], more)
        found.append((text, sort, [(key, one[2])] if one[2] else [], ask))
    lines, signatures, asks = [], [], []
    for text, sort, params, ask in found[: 12]:
        if len(params) < 4 and rnd.random() < 0.2:
            params = params + [(words.new(fields, [it[0] for it in params]), rnd.choice(["bool", "int", "nat", "name"]))]
        word = words.new(called)
        called.append(word)
        lines.append(f"query {word}({', '.join(f'{name}: {it}' for name, it in params)}): {sort} = {text}")
        signatures.append([word, [it[1] for it in params], sort])
        asks.append(ask)
    return lines, signatures, asks


def drawn(rnd):
    """The texts of a type and of a design without a proof."""
    words, fields, called, ranked = Words(rnd), [], [], rnd.random() < 0.5
    groups = [Group(rnd, words, fields, ranked) for _ in range(rnd.randint(1, 4))]
    while any(len(it.params()) > 4 for it in groups):
        groups = [it for it in groups if len(it.params()) <= 4] or [Group(rnd, words, fields, ranked)]
    lines, ops, effects = [], [], []
    for number in range(len(groups) + rnd.randint(0, 2)):
        line, signature, effect = operation(rnd, words, groups, fields, called, number, ranked)
        lines.append(line)
        ops.append(signature)
        effects.append(effect)
    queries, signatures, asks = queries_of(rnd, words, groups, fields, called)
    components = [
        [*component, [effect[at][part] for effect in effects]] for at, group in enumerate(groups) for part, component in enumerate(group.components())
    ]
    states = [line for group in groups for line in group.states()]
    said = lambda line: (f"# {rnd.choice(COMMENTS)}\n" if rnd.random() < 0.3 else "") + line + (f" # {rnd.choice(COMMENTS)}" if rnd.random() < 0.2 else "")
    text = "\n".join(said(line) for line in [f"type {words.new()}", *states, *lines, *queries]) + "\n"
    return text, json.dumps(["katara", 1, [ops, signatures], [components, asks], [], [], []]) + "\n"


def main():
    program, count, folder = sys.argv[1], int(sys.argv[2]), sys.argv[3]
    rnd = random.Random(int(os.environ.get("SEED", 1)))
    unproved = 0
    for number in range(1, count + 1):
        base = f"{folder}/h{number}/h{number}"
        os.makedirs(os.path.dirname(base), exist_ok=True)
        while True:
            text, design = drawn(rnd)
            for path, content in ((base + ".type", text), (base + ".design", design)):
                with open(path, "w", encoding="utf-8") as file:
                    file.write(content)
            done = subprocess.run([program, "prove", base + ".type", base + ".design"], capture_output=True)
            if done.returncode == 0:
                break
            unproved += 1
            if os.environ.get("TELL"):
                print(text, design, done.returncode, done.stderr.decode(), done.stdout.decode()[:500], sep="\n")
        with open(base + ".design", "wb") as file:
            file.write(done.stdout)
    print(f"hostile: {count} types with designs; {unproved} others that weren't proved")


main()
