#!/usr/bin/env python3
"""Random calls of the library, beside what `katara run` writes on the same script.

    embed/fuzz.py LIBRARY [--differences] [--short] [--program PROGRAM] [--calls N] [--scripts N] [--tell N] [--seed N] [NAME..]
    embed/fuzz.py --driver 'WORDS' [--memory] [--program PROGRAM] [--calls N] [--seed N] [NAME..]
    embed/fuzz.py LIBRARY --sqlite EXTENSION | --postgres DATABASE [--differences] [--memory] [--program PROGRAM] [--calls N] [--seed N] [NAME..]

The calls are those of the Python binding over a shared library, or with --driver those of another binding: of a program that these
words start, which reads lines and answers each (c/drive.c, rust/examples/drive.rs, web/drive.mjs; `Driver` has the form of the lines).
With --sqlite or --postgres they are statements of SQL (sqlcalls.py), and LIBRARY only runs the scripts.

For the types of examples/gallery that are named, or for all that have a design, it draws scripts: replicas do operations, ship
states, merge them late and again, and answer queries. Each line is a call of the library too, by values or by a text, and a state
that is merged at once comes as a text or from the other replica. In between come calls that must be refused, of texts, values, files
and states that are damaged, after which the state must be as it was, each with its code and the words of that; and replicas that are
freed and set up again from their states. What a merge says of a change, and the keys that are listed for a query, are compared with what
the states say. At the end of each script the answers are compared with those of the library's own `run`, and of PROGRAM, if it is given.

In every third script, and with --differences in each, replicas ship differences (`Sharing`): packets that are lost, doubled, late, relayed
or sent to all, made from any share that a peer may have, with restarts from shares. Beside each replica is one that merges whole states,
with which it has the same state and answers; and a gap is refused exactly if an operation is missing that the packet leaves out.
Scripts without a restart are compared with `run` too. With --short there are many small scripts. With --memory many replicas are opened and
freed at last, and the memory may not grow. It ends with how many calls there were, of at least --calls and --scripts, or at the first
difference; --tell N tells how far it came every N scripts.
"""
import collections
import ctypes
import argparse
import json
import pathlib
import random
import shlex
import subprocess
import sys
import tempfile

here = pathlib.Path(__file__).resolve().parent
sys.path.insert(0, str(here / "python"))
import katara  # noqa: E402
import sqlcalls  # noqa: E402

GALLERY = here / "../examples/gallery"
NAMES = ["a", "milk", "eggs", "bread", "a_name_of_15_xx"]


class Counted:
    """A library whose calls are counted."""

    def __init__(self, lib):
        self.lib, self.calls = lib, 0

    def __getattr__(self, name):
        call = getattr(self.lib, name)

        def counted(*words):
            self.calls += 1
            return call(*words)

        setattr(self, name, counted)
        return counted


# what each code says
WORDS = [
    "done",
    "out of memory",
    "the answer is longer than the room for it",
    "the handle has no replica, or has one already",
    "the type file is refused",
    "the design file is refused",
    "the design file has another signature than the type",
    "the proof isn't accepted",
    "the call is none that the design has",
    "a number is past its limit",
    "the text is no state file of the design",
    "the script is refused",
    "the other replica has another design",
    "operations are missing that come before those of the packet",
    "the replica doesn't know its marks",
    "the text is no share file or packet of the design",
]


class InProcess:
    """The Python binding."""

    name = "Python"

    def __init__(self, path):
        self.library = katara.Library(path)
        self.library.lib = self.counted = Counted(self.library.lib)
        # types that are open, of which most replicas are made, and how many were asked for
        self.types, self.asked = {}, 0

    calls = property(lambda self: self.counted.calls)

    def open(self, ty, design, number):
        self.asked += 1
        if self.asked % 8 and (ty, design) in self.types:
            return self.types[ty, design].replica(number)
        replica = self.library.open(ty, design, number)
        if len(self.types) < 100 and (ty, design) not in self.types:
            self.types[ty, design] = self.library.type(ty, design)
        return replica

    def run(self, *texts):
        return self.library.run(*texts)

    def memory(self):
        """The bytes that the C library's heap has given out."""
        fields = "arena ordblks smblks hblks hblkhd usmblks fsmblks uordblks fordblks keepcost".split()
        told = type("mallinfo2", (ctypes.Structure,), {"_fields_": [(name, ctypes.c_size_t) for name in fields]})
        heap = ctypes.CDLL(None)
        heap.mallinfo2.restype = told
        return heap.mallinfo2().uordblks


def digits(content):
    content = content.encode() if isinstance(content, str) else bytes(content)
    return content.hex() or "-"


def content(word):
    return bytes.fromhex(word.replace("-", ""))


def in_word(value):
    """A value as a word of a line: t0, t1, n and a number, or s and a name in hexadecimal digits."""
    return f"t{value:d}" if isinstance(value, bool) else f"n{value}" if isinstance(value, int) else f"s{digits(value)}"


def of_word(word):
    return word == "t1" if word[0] == "t" else int(word[1:]) if word[0] == "n" else content(word[1:]).decode()


def listed(words):
    return [] if words == "-" else [of_word(word) for word in words.split(",")]


class Driver:
    """Another binding, in a program that answers lines. Each has the words

        open SLOT NUMBER TYPE DESIGN | free SLOT | do SLOT NAME VALUE.. | ask SLOT NAME VALUE.. | do_text SLOT TEXT | ask_text SLOT TEXT
        state SLOT | merge SLOT STATE | merge_from SLOT SLOT | restore SLOT STATE | keys SLOT NAME | keys_beyond SLOT NAME STATE
        share SLOT | difference SLOT SHARE | merge_difference SLOT PACKET | marks SLOT | restore_share SLOT SHARE
        run TYPE DESIGN SCRIPT | memory

    with texts in hexadecimal digits, `-` for an empty one. The answer is `ok` with a number, a text, a value, or values with a comma
    between each two; after a merge with 1 if anything changed, else 0; or `error CODE CONDITION LINE WORDS`, with `-` for a place that
    there isn't.
    """

    def __init__(self, words):
        self.name, self.calls = words, 0
        # slots that have no replica, and those whose replica was dropped, which is told with the next one that is opened
        self.free_slots, self.dropped = list(range(4096)), []
        self.program = subprocess.Popen(shlex.split(words), stdin=subprocess.PIPE, stdout=subprocess.PIPE, text=True)

    def call(self, *words):
        self.calls += 1
        print(*words, file=self.program.stdin, flush=True)
        answer = self.program.stdout.readline().split()
        if not answer:
            raise Fault(f"the driver ended at {' '.join(map(str, words))[:300]}")
        if answer[0] == "error":
            code, *place = [int(word) if word != "-" else None for word in answer[1:4]]
            error = katara.KataraError(code, content(answer[4]).decode())
            error.condition, error.line = place
            raise error
        return answer[1] if answer[1:] else None

    def open(self, ty, design, number):
        return Remote(self, ty, design, number)

    def run(self, *texts):
        return content(self.call("run", *map(digits, texts))).decode()

    def memory(self):
        return int(self.call("memory"))

    def end(self):
        """How the program ends: with 0, or where a checker of memory found something."""
        self.program.stdin.close()
        if self.program.wait():
            raise Fault(f"the driver ends with {self.program.returncode}")


class Remote:
    """A replica of a driver."""

    def __init__(self, driver, ty, design, number):
        self.driver, self.slot = driver, None
        while driver.dropped:
            driver.call("free", driver.dropped[-1])
            driver.free_slots.append(driver.dropped.pop())
        driver.call("open", driver.free_slots[-1], number, digits(ty), digits(design))
        self.slot = driver.free_slots.pop()

    def call(self, word, *words):
        return self.driver.call(word, self.slot, *words)

    def do(self, name, values=()):
        return int(self.call("do", digits(name), *map(in_word, values)))

    def ask(self, name, values=()):
        return of_word(self.call("ask", digits(name), *map(in_word, values)))

    def do_text(self, text):
        return int(self.call("do_text", digits(text)))

    def ask_text(self, text):
        return content(self.call("ask_text", digits(text))).decode()

    def state(self):
        return content(self.call("state"))

    def merge(self, state):
        if state is self:
            return False
        return self.call("merge_from", state.slot) == "1" if isinstance(state, Remote) else self.call("merge", digits(state)) == "1"

    def restore(self, state):
        self.call("restore", digits(state))

    def keys(self, query):
        return listed(self.call("keys", digits(query)))

    def keys_beyond(self, query, known):
        return listed(self.call("keys_beyond", digits(query), digits(known)))

    def share(self):
        return content(self.call("share"))

    def difference(self, known=b""):
        return content(self.call("difference", digits(known)))

    def merge_difference(self, packet):
        return self.call("merge_difference", digits(packet)) == "1"

    def marks(self):
        return content(self.call("marks"))

    def restore_share(self, share):
        self.call("restore_share", digits(share))

    def free(self):
        self.call("free")

    def __del__(self):
        # (this may come in the midst of another call)
        if self.slot is not None:
            self.driver.dropped.append(self.slot)


class Kind:
    """A type of the gallery with its design."""

    def __init__(self, name):
        self.name = name
        self.paths = [str(GALLERY / name / f"{name}.{ending}") for ending in ("type", "design")]
        self.type, self.design = (pathlib.Path(path).read_bytes() for path in self.paths)
        self.file = json.loads(self.design)
        self.ops, self.queries = self.file[2]
        # what its replicas keep: each component without its effects
        self.keeps = [component[:-1] for component in self.file[3][0]]
        # the same without its proof
        self.unproved = json.dumps([*self.file[:5], [], []])

    def call(self, draw, items):
        name, sorts, *_ = draw.choice(items)
        return name, [argument(draw, sort) for sort in sorts]

    def entries(self, query, state):
        """What the tables, sets and sums by key that a query reads have at each key, by the text of a state file."""
        found, parts = {}, json.loads(state)[4]
        for place in components_of(self.file[3][1][[name for name, *_ in self.queries].index(query)]):
            if self.file[3][0][place][0] in ("table", "tallies", "set"):
                for entry in parts[place]:
                    key, value = entry if isinstance(entry, list) else (entry, True)
                    found.setdefault(key, {})[place] = value
        return found

    def keys(self, query, state, known=None):
        """The keys of a query in a state; or those at which it differs from an earlier one."""
        now, before = self.entries(query, state), self.entries(query, known) if known else {}
        return sorted((key for key, value in now.items() if value != before.get(key)), key=lambda key: (isinstance(key, str), key))


def components_of(ask):
    """The components that an ask reads."""
    if ask[0] == "leaf":
        return {ask[1]}
    return {place for part in ask[1:] if isinstance(part, list) for place in components_of(part)}


def argument(draw, sort):
    if sort == "name":
        return draw.choice(NAMES)
    if sort == "bool":
        return draw.random() < 0.5
    number = draw.choice([0, 1, 2, 3, draw.randrange(100), draw.randrange(10**12 + 1)])
    return -number if sort == "int" and draw.random() < 0.5 else number


def written(value):
    """A value as a script has it."""
    return f'"{value}"' if isinstance(value, str) else str(value).lower()


def text(call):
    name, values = call
    return " ".join([name, *map(written, values)])


def no_argument(draw, sort, has_truths=True):
    """A value that is no argument of a sort; without truth values 0 and 1 are taken for them."""
    numbers = [10**12 + 1, -(10**12) - 1, 2**64, -(2**64), 2**127 - 1, -(2**127), 2**200, *([-1] if sort == "nat" else [])]
    names = ["a b", "\xe4", "a\0b", "a_name_of_16_xxx", "a_name_of_more_than_16", '"']
    others = {"bool": [2, "true"], "name": [0, True, *names]}.get(sort, ["1", *numbers])
    if has_truths:
        others += {"bool": [0, 1], "name": []}.get(sort, [True])
    return draw.choice(others)


class Fault(Exception):
    pass


# how often each code came
codes_met = collections.Counter()


def refused(call, codes, place=(None, None)):
    try:
        call()
    except katara.KataraError as error:
        if error.code not in codes:
            raise Fault(f"code {error.code} and not one of {codes}")
        if (error.condition, error.line) != place and error.code == katara.BAD_PROOF and place[0]:
            raise Fault(f"the proof's fault is at {error.condition}, {error.line} and not at {place}")
        words = WORDS[error.code]
        if str(error) not in (words, f"{words}: condition {error.condition}, line {error.line}"):
            raise Fault(f"code {error.code} says `{error}`")
        codes_met[error.code] += 1
        return
    raise Fault("a call that must be refused was done")


def damaged(draw, text):
    """A text that is cut off, or has another byte."""
    text = bytearray(text)
    for _ in range(draw.randrange(1, 4)):
        place = draw.randrange(len(text))
        text[place] = draw.randrange(256)
    return bytes(text if draw.random() < 0.7 else text[: draw.randrange(len(text))])


class Run:
    """One script, and the replicas that go through it by the library."""

    # whether the script has all that was done
    told = True

    def __init__(self, library, kind, other_kind, draw, lines):
        self.library, self.kind, self.other_kind, self.draw = library, kind, other_kind, draw
        self.replicas = [self.open(number) for number in range(1, draw.randrange(2, 6))]
        self.script, self.wanted, self.packets = [f"replicas {len(self.replicas)}"], [], []
        self.begin()
        for _ in range(lines):
            self.step()
        for number in range(1, len(self.replicas) + 1):
            self.show(number)

    def open(self, number):
        return self.library.open(self.kind.type, self.kind.design, number)

    def begin(self):
        pass

    def do(self, number, replica):
        call = self.kind.call(self.draw, self.kind.ops)
        time = replica.do(*call) if self.draw.random() < 0.5 else replica.do_text(text(call))
        self.script.append(f"do {number} {text(call)}")
        return call, time

    def ask(self, number, replica):
        call = self.kind.call(self.draw, self.kind.queries)
        self.script.append(f"ask {number} {text(call)}")
        answer = written(replica.ask(*call)) if self.draw.random() < 0.5 else replica.ask_text(text(call))
        self.wanted.append(f"{number} {text(call)} = {answer}")
        return call, answer

    def place(self):
        """Where a packet goes: a script has at most 32, and a later one of the same name takes the place of the first."""
        return len(self.packets) if len(self.packets) < 32 else self.draw.randrange(32)

    def merge(self, replica, state):
        """Merges a state, and looks at what is said of a change."""
        before = replica.state()
        changed = replica.merge(state)
        # (a call of SQL says nothing of it)
        if changed not in (None, replica.state() != before):
            raise Fault(f"a merge says {changed} of a change")

    def list_keys(self, replica, known):
        query, state = self.draw.choice(self.kind.queries)[0], replica.state()
        for keys, wanted in ((replica.keys(query), self.kind.keys(query, state)), (replica.keys_beyond(query, known), self.kind.keys(query, state, known))):
            if keys != wanted:
                raise Fault(f"the keys of {query} are {keys} and not {wanted}")

    def step(self):
        draw, number = self.draw, self.draw.randrange(1, len(self.replicas) + 1)
        replica, chance = self.replicas[number - 1], self.draw.random()
        if chance < 0.4:
            known = replica.state() if draw.random() < 0.1 else None
            self.do(number, replica)
            if known:
                self.list_keys(replica, known)
        elif chance < 0.7:
            self.ask(number, replica)
        elif chance < 0.78:
            place = self.place()
            self.script.append(f"ship {number} p{place}")
            self.packets[place : place + 1] = [replica.state()]
        elif chance < 0.81:
            self.take_from(number, replica)
        elif chance < 0.9:
            if self.packets:
                place, known = draw.randrange(len(self.packets)), replica.state()
                self.merge(replica, self.packets[place])
                self.script.append(f"deliver p{place} {number}")
                self.list_keys(replica, known)
        elif chance < 0.91:
            self.show(number)
        elif chance < 0.93:
            self.set_up_again(number)
        else:
            self.refuse(number, replica)

    def take_from(self, number, replica):
        """One takes in another as it is."""
        other = self.draw.randrange(1, len(self.replicas) + 1)
        place = self.place()
        self.packets[place : place + 1] = [self.replicas[other - 1].state()]
        self.merge(replica, self.replicas[other - 1])
        self.script += [f"ship {other} p{place}", f"deliver p{place} {number}"]

    def show(self, number):
        _, _, written, clock, parts = json.loads(self.replicas[number - 1].state())
        if written != number:
            raise Fault(f"replica {number} says that it is {written}")
        self.script.append(f"show {number}")
        self.wanted.append(f"{number} clock {clock} {json.dumps(parts, separators=(',', ':'))}")

    def set_up_again(self, number):
        state = self.replicas[number - 1].state()
        fresh, old = self.open(self.draw.randrange(1, 33)), self.replicas[number - 1]
        fresh.restore(state)
        self.replicas[number - 1] = fresh
        old.free()
        call = self.kind.call(self.draw, self.kind.ops)
        for used in (lambda: old.do(*call), lambda: old.do_text(text(call)), old.state, lambda: old.merge(state), lambda: old.merge(fresh), lambda: fresh.merge(old), lambda: old.restore(state)):
            refused(used, [katara.HANDLE])

    def refuse(self, number, replica):
        draw, before = self.draw, replica.state()
        for _ in range(4):
            other = damaged(draw, before)
            choice = draw.randrange(9)
            if choice == 0:
                refused(lambda: replica.do_text(draw.choice(["", "x", "add", "do 1", "add 1 2 3 4 5", '"', "\0", "inc\ninc\ndo inc", b"\xff", b'add "\xff" 1'])), [katara.NO_CALL])
            elif choice == 1:
                refused(lambda: replica.ask_text(draw.choice(["", "x", "get get", "ask", '"', "\xff", "#", b"\xff", b'count "\xff"'])), [katara.NO_CALL])
            elif choice == 2:
                self.take(replica.merge, other, before)
            elif choice == 3:
                refused(lambda: replica.merge(draw.choice([b"", b"[]", b"{}", b"null", b'["state",2,1,0,[]]', b'["state",1,33,0,[]]', b"[" * 300])), [katara.BAD_STATE])
            elif choice == 4:
                refused(lambda: self.open(draw.choice([0, 33, 2**32 - 1])), [katara.LIMIT])
            elif choice == 5:
                self.opened(draw)
            elif choice == 6:
                self.refuse_files(replica)
            else:
                self.refuse_numbered(replica)
            if replica.state() != before:
                raise Fault("a call that was refused changed the state")

    def refuse_files(self, replica):
        """Files that aren't opened or run, and replicas of another design."""
        kind, other, draw = self.kind, self.other_kind, self.draw
        refused(lambda: self.library.open(draw.choice([b"", b"type", b"type a\n", b"\xff"]), kind.design, 1), [katara.BAD_TYPE])
        refused(lambda: self.library.open(kind.type, draw.choice([b"", b"[]", b"{", b"null"]), 1), [katara.BAD_DESIGN])
        refused(lambda: self.library.open(kind.type, other.design, 1), [katara.OTHER_SIGNATURE])
        refused(lambda: self.library.open(kind.type, kind.unproved, 1), [katara.BAD_PROOF], (1, 1))
        refused(lambda: self.library.run(kind.type, kind.unproved, "replicas 1\n"), [katara.BAD_PROOF])
        refused(lambda: self.library.run(kind.type, kind.design, draw.choice(["", "replicas 0\n", "replicas 33\n", "replicas 1\nshow 2\n"])), [katara.BAD_SCRIPT])
        spare = self.library.open(other.type, other.design, 1)
        for call in (lambda: replica.merge(spare), lambda: spare.merge(replica)):
            refused(call, [katara.OTHER_DESIGN])

    def refuse_numbered(self, replica):
        """Calls by a name and values that the design doesn't have."""
        draw = self.draw
        items, find, call = draw.choice([(self.kind.ops, "operation", replica.do), (self.kind.queries, "query", replica.ask)])
        name, sorts, *_ = draw.choice(items)
        if isinstance(replica, katara.Replica) and replica.number(find, name) != [item[0] for item in items].index(name):
            raise Fault(f"another number of {name}")
        good = [argument(draw, sort) for sort in sorts]
        if sorts and draw.random() < 0.6:
            place = draw.randrange(len(sorts))
            refused(lambda: call(name, [*good[:place], no_argument(draw, sorts[place], getattr(self.library, "has_truths", True)), *good[place + 1 :]]), [katara.NO_CALL])
        elif draw.random() < 0.3:
            refused(lambda: call(name, [*good, *good[-1:]] if good else [draw.choice([0, True, "a"])]), [katara.NO_CALL])
        elif sorts and draw.random() < 0.5:
            refused(lambda: call(name, good[: draw.randrange(len(good))]), [katara.NO_CALL])
        else:
            if isinstance(replica, katara.Replica):
                replica.numbers[find, "none"] = draw.choice([len(items), 12, 2**31, 2**32 - 1])
            refused(lambda: call("none", good), [katara.NO_CALL])
            others = [it for it in ("", name[1:], f"{name}x", f"{name}\0", "a_name_of_16_xxx", "\xe4") if it not in [item[0] for item in items]]
            refused(lambda: call(draw.choice(others), good), [katara.NO_CALL])

    def take(self, call, state, before):
        """A damaged state is refused; if it is one all the same, a replica that isn't used any more merges it."""
        spare = self.open(32)
        try:
            spare.merge(state)
        except katara.KataraError as error:
            if error.code != katara.BAD_STATE:
                raise Fault(f"code {error.code} of a damaged state")
            refused(lambda: call(state), [katara.BAD_STATE])
            refused(lambda: spare.restore(state), [katara.BAD_STATE])

    def opened(self, draw):
        """A damaged design isn't opened, or is one all the same."""
        try:
            self.library.open(self.kind.type, damaged(draw, self.kind.design), 1)
        except katara.KataraError as error:
            if error.code not in (katara.BAD_DESIGN, katara.OTHER_SIGNATURE, katara.BAD_PROOF):
                raise Fault(f"code {error.code} of a damaged design")


class Packet:
    """A difference, with the marks that it tells from, the sender's, and the whole state of the sender; `taken` sets what a peer has."""

    def __init__(self, content, base, marks, state, share, sender):
        self.content, self.base, self.marks, self.state, self.share, self.sender = content, base, marks, state, share, sender


class Sharing(Run):
    """A script whose replicas ship differences. Beside each replica is one that merges whole states, and the marks that it must have."""

    def begin(self):
        self.plain = [self.open(number) for number in range(1, len(self.replicas) + 1)]
        self.marks = [{} for _ in self.replicas]
        # what each saved last, and all shares of each, with their marks: from any of these a difference may be made
        self.saved = [self.kept(number) for number in range(1, len(self.replicas) + 1)]
        self.shares = [[(b"", {})] for _ in self.replicas]

    def kept(self, number):
        return self.replicas[number - 1].share(), self.plain[number - 1].state(), dict(self.marks[number - 1])

    def step(self):
        draw, number = self.draw, self.draw.randrange(1, len(self.replicas) + 1)
        replica, chance = self.replicas[number - 1], self.draw.random()
        if chance < 0.35:
            call, time = self.do(number, replica)
            if self.plain[number - 1].do(*call) != time:
                raise Fault("another time than that of a replica that merges whole states")
            self.marks[number - 1][number] = time
            # (an own operation is saved before it is sent)
            self.saved[number - 1] = self.kept(number)
        elif chance < 0.5:
            call, answer = self.ask(number, replica)
            if self.plain[number - 1].ask_text(text(call)) != answer:
                raise Fault(f"another answer than that of a replica that merges whole states: {text(call)} = {answer}")
        elif chance < 0.7:
            self.send(number, replica)
        elif chance < 0.93:
            if self.packets:
                self.deliver(number, replica, draw.randrange(len(self.packets)))
        elif chance < 0.95:
            self.saved[number - 1] = self.kept(number)
        elif chance < 0.97:
            self.restart(number)
        else:
            self.refuse_shares(number, replica)
        if draw.random() < 0.2:
            self.look_at(number)

    def send(self, number, replica):
        """A packet, from what a peer may have: nothing, or an earlier share of this replica, the later the more often, or one of another."""
        draw = self.draw
        of = number if draw.random() < 0.9 else draw.randrange(1, len(self.replicas) + 1)
        known, base = draw.choice(self.shares[of - 1][-4:] if draw.random() < 0.7 else self.shares[of - 1])
        share, place = (replica.share(), dict(self.marks[number - 1])), self.place()
        packet = Packet(replica.difference(known), base, share[1], self.plain[number - 1].state(), share, number)
        self.shares[number - 1].append(share)
        self.packets[place : place + 1] = [packet]
        self.script.append(f"ship {number} p{place}")

    def deliver(self, number, replica, place):
        packet, marks, before = self.packets[place], self.marks[number - 1], replica.share()
        missing = any(marks.get(of, 0) < time for of, time in packet.base.items())
        if missing:
            refused(lambda: replica.merge_difference(packet.content), [katara.GAP])
            if replica.share() != before:
                raise Fault("a gap changed the replica")
            return
        known = replica.state()
        changed = replica.merge_difference(packet.content)
        if changed not in (None, replica.state() != known):
            raise Fault(f"a packet says {changed} of a change")
        self.plain[number - 1].merge(packet.state)
        for of, time in packet.marks.items():
            marks[of] = max(marks.get(of, 0), time)
        self.script.append(f"deliver p{place} {number}")
        self.list_keys(replica, known)

    def look_at(self, number):
        replica, plain, marks = self.replicas[number - 1], self.plain[number - 1], self.marks[number - 1]
        if replica.state() != plain.state():
            raise Fault("another state than that of a replica that merges whole states")
        if json.loads(replica.marks())[4][0] != sorted([of, time] for of, time in marks.items()):
            raise Fault(f"the marks are {replica.marks()} and not {marks}")

    def restart(self, number):
        """From what was saved: it may lack what was merged since."""
        self.told = False
        share, state, marks = self.saved[number - 1]
        self.replicas[number - 1].free()
        self.replicas[number - 1] = fresh = self.open(self.draw.randrange(1, 33))
        fresh.restore_share(share)
        self.plain[number - 1].restore(state)
        self.marks[number - 1] = dict(marks)
        if fresh.share() != share:
            raise Fault("a share that is restored is another one")

    def refuse_shares(self, number, replica):
        draw, before = self.draw, replica.share()
        packet = replica.difference(draw.choice(self.shares[number - 1])[0])
        spare = self.open(32)
        for none in (b"[]", b"\n", b"\n\n", replica.state(), replica.marks(), before[:-9], packet):
            refused(lambda: replica.difference(none), [katara.BAD_SHARE])
            refused(lambda: spare.restore_share(none), [katara.BAD_SHARE])
        for none in (b"", b"[]", replica.state(), before, packet[:-9]):
            refused(lambda: replica.merge_difference(none), [katara.BAD_SHARE])
        for call, good in ((spare.restore_share, before), (spare.merge_difference, packet), (spare.difference, before)):
            try:
                call(damaged(draw, good))
            except katara.KataraError as error:
                if error.code not in (katara.BAD_SHARE, katara.GAP):
                    raise Fault(f"code {error.code} of a damaged share or packet")
        # one that merged a state doesn't know its marks, and merges no packet
        spare.merge(replica.state()) if draw.random() < 0.5 else spare.restore(replica.state())
        for call in (spare.share, spare.marks, spare.difference, lambda: spare.difference(before), lambda: spare.merge_difference(packet)):
            refused(call, [katara.NO_MARKS])
        spare.restore_share(before)
        if replica.share() != before or spare.share() != before:
            raise Fault("a call that was refused changed the replica")


def compare(run, library, program):
    if not run.told:
        return
    script = "\n".join(run.script) + "\n"
    wanted = "".join(f"{line}\n" for line in run.wanted)
    written = {"the library's run": library.run(run.kind.type, run.kind.design, script)}
    if program:
        with tempfile.NamedTemporaryFile("w", suffix=".script") as file:
            file.write(script)
            file.flush()
            ended = subprocess.run([program, "run", *run.kind.paths, file.name], capture_output=True, text=True)
        if ended.returncode:
            raise Fault(f"the program ends with {ended.returncode}: {ended.stderr}")
        written["the program"] = ended.stdout
    for name, text in written.items():
        if text != wanted:
            pathlib.Path("fuzz.script").write_text(script)
            line = next((n for n, (a, b) in enumerate(zip(text.splitlines(), run.wanted)) if a != b), None)
            raise Fault(f"{name} writes another line {line} (the script is in fuzz.script)")


def grown(library, kind):
    """By how many bytes the memory grows over many replicas that are opened, used and freed, after as many before."""
    for _ in range(2):
        before = library.memory()
        for number in range(1, 33):
            for _ in range(4):
                one, other = (library.open(kind.type, kind.design, it) for it in (number, 33 - number))
                one.merge(other.state())
                one.merge(other)
                one.restore(one.state())
                for it in (one, other):
                    it.free()
        grown_by = library.memory() - before
    return grown_by


def compared(library, kinds, words):
    """Goes through scripts until there were enough calls, and tells how many scripts."""
    draw, runs = random.Random(words.seed), 0
    while library.calls < words.calls or runs < words.scripts:
        kind = kinds[runs % len(kinds)]
        other = draw.choice([it for it in kinds if it.file[2] != kind.file[2] and it.keeps != kind.keeps])
        library.shares = shares = words.differences or runs % 3 == 2
        lines = [4, 8, 12, 24] if words.short else [5, 20, 50, 200] if words.differences else [5, 50, 500, 1500]
        try:
            compare((Sharing if shares else Run)(library, kind, other, draw, draw.choice(lines)), library, words.program)
        except Fault as fault:
            sys.exit(f"fuzz: {kind.name}, script {runs}, seed {words.seed}: {fault}")
        runs += 1
        if words.tell and runs % words.tell == 0:
            print(f"fuzz: seed {words.seed}: {library.calls} calls, {runs} scripts", flush=True)
    return runs


def main():
    words = argparse.ArgumentParser(description=__doc__, formatter_class=argparse.RawDescriptionHelpFormatter)
    words.add_argument("--driver")
    words.add_argument("--sqlite")
    words.add_argument("--postgres")
    words.add_argument("--differences", action="store_true")
    words.add_argument("--short", action="store_true")
    words.add_argument("--memory", action="store_true")
    words.add_argument("--program")
    words.add_argument("--calls", type=int, default=20_000)
    words.add_argument("--seed", type=int, default=1)
    words.add_argument("--scripts", type=int, default=0)
    words.add_argument("--tell", type=int, default=0)
    words.add_argument("names", nargs="*", metavar="[LIBRARY] [NAME..]")
    words = words.parse_intermixed_args()
    library = Driver(words.driver) if words.driver else InProcess(words.names.pop(0))
    if words.sqlite:
        library = sqlcalls.Sqlite(words.sqlite, library, WORDS)
    if words.postgres:
        library = sqlcalls.Postgres(words.postgres, library, WORDS)
    names = words.names or sorted(path.parent.name for path in GALLERY.glob("*/*.design"))
    # (one more, so that there is another signature)
    kinds = [Kind(name) for name in dict.fromkeys([*names, "cart", "flag"])]
    runs = compared(library, kinds, words)
    lacking = set(range(katara.GAP if words.differences else katara.HANDLE, katara.BAD_SHARE + 1)) - set(codes_met)
    if lacking and words.calls >= 5000:
        sys.exit(f"fuzz: these codes never came: {lacking}")
    if words.memory and (more := grown(library, Kind("cart"))) > 16384:
        sys.exit(f"fuzz: the memory grows by {more} bytes over 256 replicas")
    calls = library.calls
    if words.driver:
        try:
            library.end()
        except Fault as fault:
            sys.exit(f"fuzz: {fault}")
    print(f"fuzz: {calls} calls, {runs} scripts of {min(len(kinds), runs)} types, no difference ({library.name})")


main()
