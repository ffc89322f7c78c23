#!/usr/bin/env python3
"""beside.py PROGRAM SHARER GALLERY CODE LANGUAGE..: code of `emit` beside the program.

For each type of the gallery some scripts are drawn. `PROGRAM run` says what they answer and to what states they come; the class in
CODE/NAME.EXTENSION must say the same, and which keys each delivery changed. Each packet is merged three times, into copies of one state:
whole, as its difference, and as its difference to an earlier state of the receiver; all must come to one state. Texts of states, most of
them damaged, are read by `PROGRAM node-step` and by the class: both must refuse the same ones. Besides, replicas ship packets, of which some
are lost, and others come late, twice, relayed or damaged, and go on from older shares: `SHARER node-share`, `node-difference` and `node-take`
must write the same shares and packets as the class, byte by byte, and refuse the same ones, as gaps or as no texts. What is drawn depends on the
type's name alone. SCRIPTS and TEXTS say how many scripts of 30 lines and how many texts a type gets, SHARES how many times 40 events with packets.
"""
import json
import os
import random
import re
import subprocess
import sys
import tempfile

sys.dont_write_bytecode = True
import drivers

SCRIPTS, TEXTS, SHARES = int(os.environ.get("SCRIPTS", 3)), int(os.environ.get("TEXTS", 8)), int(os.environ.get("SHARES", 1))
LINES, REPLICAS, EVENTS = 30, 3, 40
ARGUMENTS = {
    "bool": [True, False],
    "name": ["", "a", "b", "milk", "Z.9_-", "abcdefghijklmno"],
    "nat": [0, 1, 2, 3, 7, 10**12],
    "int": [0, 1, -1, 2, 5, -7, -(10**12)],
}


def steps_of(ops, queries, rnd):
    """The lines of a script, as lists; of calls the number and the arguments."""
    steps, packets = [], []
    for _ in range(LINES):
        replica, kind = rnd.randint(1, REPLICAS), rnd.choice("dddddssvvvaa")
        if (kind == "d" or kind == "v" and not packets) and ops:
            at = rnd.randrange(len(ops))
            steps.append(["do", replica, at, [rnd.choice(ARGUMENTS[s]) for s in ops[at][1]]])
        elif kind == "s":
            packets.append(f"p{rnd.randint(1, 5)}")
            steps.append(["ship", replica, packets[-1]])
        elif kind == "v" and packets:
            steps.append(["deliver", replica, rnd.choice(packets)])
        elif kind == "a" and queries:
            at = rnd.randrange(len(queries))
            steps.append(["ask", replica, at, [rnd.choice(ARGUMENTS[s]) for s in queries[at][1]]])
    return steps + [["show", replica] for replica in range(1, REPLICAS + 1)]


def line_of(step, ops=None, queries=None):
    """A line of a script, or, without names, one for a driver."""
    kind, replica, *more = step
    if kind in ("do", "ask"):
        called = more[0] if ops is None else (ops if kind == "do" else queries)[more[0]][0]
        return " ".join([kind, str(replica), str(called), *map(json.dumps, more[1])])
    if kind == "deliver":
        return f"deliver {more[0]} {replica}"
    return " ".join([kind, str(replica), *more])


def script_of(steps, ops, queries):
    """The script, with what is shown before and after each delivery."""
    lines = [f"replicas {REPLICAS}"]
    for step in steps:
        shown = [f"show {step[1]}"] * (step[0] == "deliver")
        lines += [*shown, line_of(step, ops, queries), *shown]
    return "\n".join(lines) + "\n"


def by_program(program, *words, text):
    with tempfile.NamedTemporaryFile("w", suffix=".script", encoding="utf-8") as file:
        file.write(text)
        file.flush()
        return subprocess.run([program, *(file.name if word is None else word for word in words)], capture_output=True, text=True)


def changes(kinds, before, after):
    """What a delivery changed: whether anything, and of each part the keys or whether it did."""
    found = []
    for kind, old, new in zip(kinds, before, after):
        if kind in ("cell", "tally"):
            found.append(old != new)
        else:
            entry = (lambda it: (it, it)) if kind == "set" else (lambda it: (it[0], it[1]))
            known = dict(map(entry, old))
            found.append([key for key, value in map(entry, new) if known.get(key) != value])
    return [any(found), *found]


def keys_of(kinds, state):
    return [[it if kind == "set" else it[0] for it in part] for kind, part in zip(kinds, state) if kind in ("table", "set", "tallies")]


def wanted_of(program, base, steps, ops, queries, kinds):
    """The lines that a driver has to print for a script."""
    done = by_program(program, "run", base + ".type", base + ".design", None, text=script_of(steps, ops, queries))
    if done.returncode != 0:
        sys.exit(f"{base}: run ended with {done.returncode}: {done.stderr}")
    said, wanted = iter(done.stdout.splitlines()), []
    shown = lambda: next(said).split(" ", 3)
    for step in steps:
        if step[0] == "ask":
            wanted.append(next(said).rpartition(" = ")[2])
        elif step[0] == "deliver":
            before, after = (json.loads(shown()[3]) for _ in range(2))
            wanted.append(json.dumps(["changed", *changes(kinds, before, after)]))
        elif step[0] == "show":
            replica, _, clock, state = shown()
            wanted += [f'["state",1,{replica},{clock},{state}]', json.dumps(["keys", *keys_of(kinds, json.loads(state))])]
    return wanted


def damaged(text, rnd):
    """A text of a state with some fault, or with blanks that are none."""
    kind, at = rnd.randrange(7), rnd.randrange(len(text))
    if kind == 0:
        return text
    if kind == 1:
        return text[:at] + rnd.choice(" \n\t") + text[at:]
    if kind == 2:
        return text[:at] + text[at + 1 :]
    if kind == 3:
        return text[:at] + rnd.choice('[],"0a-1') + text[at:]
    if kind == 4:
        numbers = list(re.finditer(r"(?<![\w\".-])-?\d+(?![\w\".-])", text))
        found = rnd.choice(numbers)
        return text[: found.start()] + str(rnd.choice([-1, 0, "-0", "01", 33, 10**9, 10**9 + 1, 10**18, 10**18 + 1, 2**62, "1.0", "1e3", True])) + text[found.end() :]
    if kind == 5:
        items = re.findall(r"\[[^][]*\]", text)
        item = rnd.choice(items) if items else "[]"
        return text.replace(item, item + "," + item, 1)
    return text[:at]


def read_by_program(program, base, text):
    """What `node-step` without actions makes of a text of a state."""
    with tempfile.NamedTemporaryFile("w", suffix=".actions") as actions:
        done = by_program(program, "node-step", base + ".design", None, actions.name, text=text)
    return done.stdout.rstrip("\n") if done.returncode == 0 else "refused"


class Sharers:
    """Replicas in share files, the lines that tell a driver what they do, and what it has to print."""

    def __init__(self, program, design, counts):
        self.program, self.design, self.counts = program, design, counts
        self.lines, self.wanted = [f"shares {REPLICAS}"], []
        self.shares = {n: self.done("node-share", design, "--replica", str(n))[1] for n in range(1, REPLICAS + 1)}
        self.kept, self.packets = {0: (0, "")}, []

    def done(self, *words, texts=()):
        """What the program answers for these words and then files with these texts: its status and what it wrote."""
        with tempfile.TemporaryDirectory() as folder:
            paths = []
            for text in texts:
                paths.append(os.path.join(folder, str(len(paths))))
                with open(paths[-1], "w", encoding="utf-8", newline="") as file:
                    file.write(text)
            done = subprocess.run([self.program, *words, *paths], capture_output=True, text=True)
        if done.returncode not in (0, 3, 4):
            sys.exit(f"{words}: ended with {done.returncode}: {done.stderr}")
        return done.returncode, done.stdout

    def tell(self, line, text=None):
        self.lines.append(line)
        if text is not None:
            self.wanted.append(text)

    def take(self, line, replica, actions, *packets):
        """A step of a replica: its new share, or why a packet is refused."""
        status, text = self.done("node-take", self.design, texts=[self.shares[replica], actions, *packets])
        if status == 0:
            self.shares[replica] = text
        elif not packets:
            sys.exit(f"{self.design}: {actions}: refused")
        self.counts[{0: "shares", 3: "refused", 4: "gaps"}[status]] += 1
        self.tell(line, {0: json.dumps(text), 3: "state", 4: "gap"}[status])

    def event(self, ops, rnd):
        replica, kind = rnd.randint(1, REPLICAS), rnd.choice("ddddkkppppttttttrsSn")
        if kind == "d" and ops:
            at = rnd.randrange(len(ops))
            args = [rnd.choice(ARGUMENTS[it]) for it in ops[at][1]]
            self.tell(line_of(["do", replica, at, args]))
            self.take(f"share {replica}", replica, " ".join(["do", ops[at][0], *map(json.dumps, args)]) + "\n")
        elif kind == "k":
            at = rnd.randint(1, 5)
            self.kept[at] = (replica, self.shares[replica])
            self.tell(f"keep {replica} {at}")
        elif kind == "p":
            at = rnd.choice(sorted(self.kept))
            known = [self.kept[at][1]] if at else []
            _, text = self.done("node-difference", self.design, texts=[self.shares[replica], *known])
            self.packets.append(text)
            self.counts["packets"] += 1
            self.tell(f"packet {replica} {at}", json.dumps(text))
        elif kind == "t" and self.packets:
            at = rnd.randrange(len(self.packets))
            self.take(f"take {replica} {at}", replica, "", self.packets[at])
        elif kind == "r" and len(self.kept) > 1:
            at = rnd.choice(sorted(self.kept)[1:])
            replica, self.shares[self.kept[at][0]] = self.kept[at]
            self.counts["restarts"] += 1
            self.tell(f"restart {replica} {at}", json.dumps(self.shares[replica]))
        elif kind == "s" and self.packets:
            text = damaged(rnd.choice(self.packets), rnd) or " "
            self.take(f"spoiled {replica} {text.encode().hex()}", replica, "", text)
        elif kind == "S":
            text = damaged(self.shares[replica], rnd) or " "
            status, read = self.done("node-take", self.design, texts=[text, ""])
            self.counts["shares" if status == 0 else "refused"] += 1
            self.tell(f"reshare {text.encode().hex()}", json.dumps(read) if status == 0 else "state")
        elif kind == "n":
            self.tell(f"plain {replica}", "marks marks marks marks marks")


def same(said, wanted):
    """Whether two lines say the same: lists of keys that changed have no order."""
    if said == wanted:
        return True
    if not said.startswith('["changed"') or not wanted.startswith('["changed"'):
        return said.startswith('["keys"') and json.loads(said) == json.loads(wanted)
    bare = lambda line: [sorted(it or [], key=str) if isinstance(it, (list, type(None))) else it for it in json.loads(line)]
    return bare(said) == bare(wanted)


def main():
    program, sharer, gallery, code, *languages = sys.argv[1:]
    compared, types, counts = 0, [], dict.fromkeys(["shares", "packets", "gaps", "restarts", "refused"], 0)
    for name in sorted(os.listdir(gallery)):
        base = os.path.join(gallery, name, name)
        if not os.path.exists(base + ".design"):
            continue
        with open(base + ".design", encoding="ascii") as file:
            _, _, (ops, queries), (components, _), *_ = json.load(file)
        kinds = [it[0] for it in components]
        rnd = random.Random(name)
        lines, wanted, texts = [], [], []
        for _ in range(SCRIPTS):
            steps = steps_of(ops, queries, rnd)
            lines += [f"begin {REPLICAS}", *map(line_of, steps)]
            found = wanted_of(program, base, steps, ops, queries, kinds)
            wanted += found
            texts += [it + "\n" for it in found if it.startswith('["state"')]
        for _ in range(TEXTS):
            text = damaged(rnd.choice(texts), rnd)
            lines.append("load " + (text.encode().hex() or "20"))
            wanted.append(read_by_program(program, base, text))
        rnd = random.Random(f"shares of {name}")
        for _ in range(SHARES):
            sharers = Sharers(sharer, base + ".design", counts)
            for _ in range(EVENTS):
                sharers.event(ops, rnd)
            lines += sharers.lines
            wanted += sharers.wanted
        types.append((name, ops, queries, lines, wanted))
    for language in languages:
        made = drivers.make(language, code, [it[:3] for it in types])
        for name, _, _, lines, wanted in types:
            done = subprocess.run(made(name), input="\n".join(lines) + "\n", capture_output=True, text=True)
            if done.returncode != 0:
                sys.exit(f"{name}, {language}: {done.stderr}")
            said = done.stdout.splitlines()
            at = next((i for i, (a, b) in enumerate(zip(said, wanted)) if not same(a, b)), min(len(said), len(wanted)))
            if at < max(len(said), len(wanted)):
                sys.exit(f"{name}, {language}: line {at + 1}: {said[at:at + 1]} and not {wanted[at:at + 1]}")
            compared += len(wanted)
    told = ", ".join(f"{count} {word}" for word, count in counts.items())
    print(f"emit: {compared} answers, changes, states and refusals compared, among them in each language {told}")


main()
