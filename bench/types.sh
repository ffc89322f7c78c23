#!/bin/sh
# Time and peak memory of reading type files of 16 MB and of 4 MB, beside a plain program that only cuts the same bytes
# into tokens (lex_yardstick.rs), both in one run: for each text the milliseconds of both whole programs (the fastest of
# three runs), their ratio, how the time grew from 4 MB to 16 MB, the peak memory of both, and the refusal, which must be
# the one that the text was made for. The program has a stack of 256 KB. It is the one given, or the one that ../katara
# builds.
here=$(cd "$(dirname "$0")" && pwd) || exit 1
work=$(mktemp -d) || exit 1
trap 'rm -rf "$work"' EXIT
types="$here/../examples/types"
program=$1
if [ -z "$program" ]; then
    "$here/../katara" model "$types/flag.type" "$types/flag.script" >/dev/null || exit 1
    program="$here/../crates/kat_program/out/kat_program"
fi
rustc --edition 2021 -O -o "$work/plain" "$here/lex_yardstick.rs" || exit 1
rustc --edition 2021 -O -o "$work/peak" "$here/peak.rs" || exit 1
python3 - "$program" "$work/plain" "$types" "$work" <<'PYTHON'
import itertools, os, resource, subprocess, sys
program, plain, types, work = sys.argv[1:5]
MB = 1 << 20
with open(os.path.join(types, "flag.type"), "rb") as f:
    flag = f.read()
state, op, query = b"state n: int = 0\n", b"op inc() rank 0: n := n + 1\n", b"query get(): int = n\n"

def filled(head, piece, tail, size):
    """A text of about so many bytes: a head, a piece as often as it fits, and a tail."""
    return head + piece * ((size - len(head) - len(tail)) // len(piece)) + tail

def far_field(size):
    """A text of many fields, the last of which is assigned 399 times, so that its name is looked up as often."""
    tail = b"state last: int = 0\nop inc() rank 0: " + b"; ".join([b"last := 1"] * 399) + b"\n" + query.replace(b"n\n", b"1\n")
    text = numbered(b"type t\n", b"state f%d: int = 0\n", tail, size)
    return text, "Twice 6 at byte %d" % text.index(b"last", text.index(b"last :=") + 1)

def numbered(head, piece, tail, size):
    """The same, with numbers in the pieces, so that their names differ."""
    out, length = [head], len(head) + len(tail)
    for n in itertools.count():
        one = piece % n
        length += len(one)
        if length > size:
            return b"".join(out) + tail
        out.append(one)

head = b"type t\n" + state
parts = {
    # name: the text of this many bytes, and what is printed of it (None if it is accepted)
    "comments": lambda size: (filled(b"", b"# a long comment about what this type is for\n", flag, size), None),
    "one comment": lambda size: (filled(b"#", b"x", b"\n" + flag, size), None),
    "blanks": lambda size: (filled(b"", b" \t\r\n", flag, size), None),
    "bad end": lambda size: (lambda text: (text, "BadByte 1 at byte %d" % (len(text) - 1)))(filled(b"", flag, b"\xff", size)),
    "zeros": lambda size: (filled(b"type t\nstate n: int = ", b"0", b"\n" + op + query, size), None),
    "long word": lambda size: (filled(b"type ", b"w", b"", size), "LongName 2 at byte 5"),
    "open literal": lambda size: (lambda text: (text, "BadByte 1 at byte %d" % len(text)))(filled(b'type t\nstate n: name = "', b"a", b"", size)),
    "many types": lambda size: (filled(b"", flag, b"", size), "Syntax 4 at byte %d" % (len(flag) + flag.index(b"type"))),
    "parentheses": lambda size: (filled(head + b"op inc() rank 0: n := ", b"(", b"", size), "TooLarge 9 at byte %d" % (len(head) + 22 + 24)),
    "closed ones": lambda size: (filled(head + b"op inc() rank 0: n := ", b")", b"", size), "Syntax 4 at byte %d" % (len(head) + 22)),
    "sums": lambda size: (filled(head + b"op inc() rank 0: n := 1", b"+1", b"", size), "TooLarge 9 at byte %d" % (len(head) + 22 + 400)),
    "nots": lambda size: (filled(head + op + b"query q(): bool = ", b"not ", b"", size), "TooLarge 9 at byte %d" % (len(head) + len(op) + 18 + 4 * 24)),
    "newlines": lambda size: (filled(flag, b"\n", b"", size), None),
    "one field": lambda size: (filled(b"type t\n", state, op + query, size), "Twice 6 at byte %d" % (7 + len(state) + 6)),
    "many fields": lambda size: (numbered(b"type t\n", b"state f%d: int = 0\n", b"op inc() rank 0: f0 := f0 + 1\nquery get(): int = f0\n", size),
                                 "TooLarge 9 at byte %d" % (7 + sum(len(b"state f%d: int = 0\n" % n) for n in range(16)))),
    "far field": far_field,
    "parameters": lambda size: (numbered(head + b"op inc(a: int", b", p%d: int", b") rank 0: n := n + 1\n" + query, size),
                                "TooLarge 9 at byte %d" % (len(head) + 13 + 3 * 9 + 2)),
}

def small_stack():
    resource.setrlimit(resource.RLIMIT_STACK, (256 * 1024, 256 * 1024))

def run(words, limit):
    """Seconds, peak kilobytes, status and errors of the fastest of three runs."""
    best = None
    for _ in range(3):
        said = subprocess.run([os.path.join(work, "peak"), os.path.join(work, "out")] + words, capture_output=True, text=True, preexec_fn=limit)
        seconds, peak, status = said.stdout.split()
        if best is None or float(seconds) < best[0]:
            best = (float(seconds), int(peak), int(status), said.stderr)
    return best

script = os.path.join(work, "script")
with open(script, "w") as f:
    f.write("replicas 1\n")

print("%-13s %10s %10s %6s %8s %12s %12s  outcome" % ("text", "katara", "plain", "ratio", "grew", "KB katara", "KB plain"))
for name, make in parts.items():
    times = []
    for size in (4 * MB, 16 * MB):
        text, wanted = make(size)
        assert size - 256 < len(text) <= size, (name, len(text))
        path = os.path.join(work, "text.type")
        with open(path, "wb") as f:
            f.write(text)
        a, m, status, said = run([program, "model", path, script], small_stack)
        times.append(a)
    b, t, _, _ = run([plain, path, "1"], None)
    due = "" if wanted is None else "%s: %s\n" % (path, wanted)
    assert (status >> 8, said) == (0 if wanted is None else 3, due), (name, status, said, due)
    print("%-13s %7.1f ms %7.1f ms %6.2f %8.2f %12d %12d  %s" % (name, a * 1e3, b * 1e3, a / b, times[1] / times[0], m, t, wanted or "accepted"), flush=True)
PYTHON
