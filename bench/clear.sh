#!/bin/sh
# What clearing costs: instructions of `katara model` and `katara run` on 100,000 lines over 8 replicas in which each tenth line
# empties a basket, beside the same script with an addition in the place of each of these lines; both in one run. The figures are
# millions of instructions, as valgrind counts them, and the ratio of the two. Give the program, or the built one is taken.
here=$(cd "$(dirname "$0")" && pwd) || exit 1
program=${1:-$here/../crates/kat_program/out/kat_program}
work=$(mktemp -d) || exit 1
trap 'rm -rf "$work"' EXIT
python3 - "$program" "$here/../examples/gallery/basket" "$work" <<'PYTHON'
import os, random, re, subprocess, sys
program, basket, work = sys.argv[1:4]
LINES, ASKS = 100_000, 64

def script(name, emptied):
    """A script in which each tenth line empties the basket, or adds something if it must not be emptied."""
    random.seed(1)
    out, shipped = ["replicas 8"], []
    for line in range(1, LINES):
        kind, r, key = random.random(), random.randint(1, 8), random.randrange(200)
        if line % (LINES // ASKS) == 0:
            out.append('ask %d has "thing%d"' % (r, key))
        elif line % 10 == 0:
            out.append("do %d empty" % r if emptied else 'do %d add "thing%d"' % (r, key))
        elif kind < 0.7 or not shipped:
            out.append('do %d add "thing%d"' % (r, key))
            if kind < 0.01:
                out[-1] = "ship %d packet%d" % (r, r)
                shipped.append(r)
        elif kind < 0.72:
            out.append("ship %d packet%d" % (r, r))
            shipped.append(r)
        else:
            out.append("deliver packet%d %d" % (random.choice(shipped), r))
    path = os.path.join(work, name)
    with open(path, "w") as f:
        f.write("\n".join(out) + "\n")
    return path

def instructions(*words):
    counted = ["valgrind", "--tool=callgrind", "--callgrind-out-file=" + os.devnull, program, *words]
    said = subprocess.run(counted, capture_output=True, text=True, check=True).stderr
    return int(re.search(r"Collected : (\d+)", said).group(1)) / 1e6

kind, design = basket + "/basket.type", basket + "/basket.design"
with_clears, without = script("with", True), script("without", False)
print("command  with clears  without  ratio")
for command, words in (("model", [kind]), ("run", [kind, design])):
    a, b = (instructions(command, *words, s) for s in (with_clears, without))
    print("%-8s %11.1f %8.1f %6.2f" % (command, a, b, a / b))
PYTHON
