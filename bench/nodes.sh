#!/bin/sh
# What a step of a replica in a file costs: instructions of `katara node-step` with one action on a cart and an element set of 100,000
# keys, and of some 15 MB, beside reading the same file as JSON and writing its value, and their ratio; then the same of
# a cart after 30 packets of 1,250 to 10,000 keys each, which all have the same keys, or each its own, for each byte of the packets. What
# the program takes with an empty state is left out. Give the program, and one that reads and writes JSON: called as `json FILE` it reads the
# file by `Value::from_slice` of serde_json and makes its text by `to_vec`. It needs valgrind, which counts.
[ $# -eq 2 ] || { echo "usage: nodes.sh PROGRAM JSON-PROGRAM" >&2; exit 1; }
here=$(cd "$(dirname "$0")" && pwd) || exit 1
program=$1
bench=$2
work=$(mktemp -d) || exit 1
trap 'rm -rf "$work"' EXIT
python3 - "$program" "$bench" "$here/../examples/gallery" "$work" <<'PYTHON'
import json, os, re, subprocess, sys
program, bench, gallery, work = sys.argv[1:5]

PARTS = {
    "cart": (lambda keys, r: [[key, [[r, 1]]] for key in keys], 'do add "key0000000" 1\n'),
    "element_set": (lambda keys, r: [[key, [i + 1, True]] for i, key in enumerate(keys)], 'do insert "key0000000"\n'),
}

def keys(count, first=0, step=1):
    return ["key%07d" % (first + step * i) for i in range(count)]

def state(file, kind, names, replica=1):
    path = os.path.join(work, file)
    with open(path, "w") as f:
        f.write(json.dumps(["state", 1, replica, len(names), [PARTS[kind][0](names, replica)]], separators=(",", ":")) + "\n")
    return path

def instructions(*words):
    command = ["valgrind", "--tool=callgrind", "--callgrind-out-file=/dev/null", *words]
    return int(re.search(r"Collected : (\d+)", subprocess.run(command, capture_output=True, text=True, check=True).stderr)[1])

def step(kind, own, packets=()):
    with open(os.path.join(work, "actions"), "w") as f:
        f.write(PARTS[kind][1])
    return instructions(program, "node-step", os.path.join(gallery, kind, kind + ".design"), own, f.name, *packets)

for kind in PARTS:
    empty = state("empty", kind, [])
    begun, read = step(kind, empty), instructions(bench, "json", empty)
    each = os.path.getsize(state("some", kind, keys(1_000))) / 1_000
    for count in (10_000, 100_000, int(15_000_000 / each)):
        own = state("own", kind, keys(count))
        a, b = step(kind, own) - begun, instructions(bench, "json", own) - read
        print("%s, %d keys, %d bytes: node-step %.1f, JSON %.1f million instructions, ratio %.2f" % (kind, count, os.path.getsize(own), a / 1e6, b / 1e6, a / b), flush=True)

empty = state("empty", "cart", [])
begun = step("cart", empty)
for what, first, apart in (("the same keys", 0, 1), ("keys of their own", 1, 30)):
    for count in (1_250, 2_500, 5_000, 10_000):
        packets = [state("packet%d" % r, "cart", keys(count, first * (r - 2), apart), r) for r in range(2, 32)]
        size, taken = sum(map(os.path.getsize, packets)), step("cart", empty, packets) - begun
        print("30 packets of %d keys, %s, %d bytes: %.1f million instructions, %.0f a byte" % (count, what, size, taken / 1e6, taken / size), flush=True)
PYTHON
