#!/bin/sh
# What a delta of one operation costs beside the whole state: bytes of its state text, and instructions of a line that makes it and of one
# that delivers it, of a register, an element set and a cart after 1,000 and 10,000 operations, each at a key of its own. Each figure is the
# difference of two runs of `katara deltas`, of which one has 100 such lines more, so it has the reading and judging of the line in
# it. Give the program, or ../katara's is taken. Instructions are those that valgrind counts.
here=$(cd "$(dirname "$0")" && pwd) || exit 1
program=${1:-$here/../crates/kat_program/out/kat_program}
work=$(mktemp -d) || exit 1
trap 'rm -rf "$work"' EXIT
python3 - "$program" "$here/../examples/gallery" "$work" <<'PYTHON'
import os, re, subprocess, sys
program, gallery, work = sys.argv[1:4]
MORE = 100

CALLS = {
    "register": lambda i: "set %d" % i,
    "element_set": lambda i: 'insert "key%d"' % i,
    "cart": lambda i: 'add "key%d" 1' % i,
}

def words(name, lines):
    path = os.path.join(work, "script")
    with open(path, "w") as f:
        f.write("\n".join(lines) + "\n")
    folder = os.path.join(gallery, name, name)
    return [program, "deltas", folder + ".type", folder + ".design", path]

def output(name, lines):
    return subprocess.run(words(name, lines), capture_output=True, text=True, check=True).stdout

def instructions(name, lines):
    command = ["valgrind", "--tool=callgrind", "--callgrind-out-file=/dev/null"] + words(name, lines)
    said = subprocess.run(command, capture_output=True, text=True, check=True).stderr
    return int(re.search(r"Collected : (\d+)", said).group(1))

# what a line costs after these
def each(name, lines, more):
    return (instructions(name, lines + more) - instructions(name, lines)) // len(more)

# the bytes of a state's text
def size(shown):
    return len(shown.split(" ", 3)[3]) - 1

for name, call in CALLS.items():
    for many in (1_000, 10_000):
        done = ["replicas 2"] + ["do 1 " + call(i) for i in range(many)]
        alone = output(name, ["replicas 2", "do 1 %s at %d" % (call(many - 1), many), "show 1"])
        whole = output(name, done + ["show 1"])
        known = done[:-1] + ["ship 1 w", "deliver w 2", done[-1]]
        delta = "delta 1 p from %d" % (many - 1)
        print("%s, %d operations" % (name, many))
        print("  bytes of the state text: a delta of one operation %d, the whole %d" % (size(alone), size(whole)))
        print("  instructions: an operation %d" % each(name, done, ["do 1 " + call(i) for i in range(many, many + MORE)]))
        print("  to make a packet: a delta %d, the whole %d" % (each(name, done, [delta] * MORE), each(name, done, ["ship 1 w"] * MORE)))
        print("  to deliver it: a delta %d, the whole %d" % (
            each(name, known + [delta, "deliver p 2"], ["deliver p 2"] * MORE),
            each(name, known + ["ship 1 w", "deliver w 2"], ["deliver w 2"] * MORE)))
        sys.stdout.flush()
PYTHON
