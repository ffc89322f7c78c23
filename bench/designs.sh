#!/bin/sh
# Instructions, time and peak memory of `katara converge` against the plain program of designs.rs: a cell, a table, a
# set, a tally and tallies by key, on 10,000, 30,000 and 90,000 lines over 32 replicas; a table with 90,000 keys and few
# packets; and shipping a state of 10,000 keys again and again. Both run in one go; the figures are ratios. Give the
# program, or ../katara is taken. Instructions are those that valgrind counts, if it is found.
here=$(cd "$(dirname "$0")" && pwd) || exit 1
program=${1:-$here/../crates/kat_program/out/kat_program}
work=$(mktemp -d) || exit 1
trap 'rm -rf "$work"' EXIT
rustc --edition 2021 -O -o "$work/plain" "$here/designs.rs" || exit 1
rustc --edition 2021 -O -o "$work/peak" "$here/peak.rs" || exit 1
python3 - "$program" "$work/plain" "$here/../examples/designs" "$work" <<'PYTHON'
import os, random, re, shutil, subprocess, sys
program, plain, designs, work = sys.argv[1:5]

def key(count):
    return '"key%d"' % random.randrange(count)

CALLS = {
    "register": (lambda keys: "set %d" % random.randint(-10 ** 12, 10 ** 12), lambda keys: "get"),
    "element_set": (lambda keys: "%s %s" % (random.choice(("insert", "remove")), key(keys)), lambda keys: "contains " + key(keys)),
    "set": (lambda keys: "add " + key(keys), lambda keys: "has " + key(keys)),
    "tally": (lambda keys: "add %d" % random.randint(0, 10 ** 6), lambda keys: "get"),
    "cart": (lambda keys: "add %s %d" % (key(keys), random.randint(0, 99)), lambda keys: "count " + key(keys)),
}

def mixed(design, lines, keys=200):
    """Half of the lines are operations; the rest are packets, asks and some shows."""
    do, ask = CALLS[design]
    random.seed(lines)
    out, shipped = ["replicas 32"], []
    while len(out) < lines:
        kind, r = random.random(), random.randint(1, 32)
        if kind < 0.5:
            out.append("do %d %s" % (r, do(keys)))
        elif kind < 0.65:
            out.append("ship %d packet%d" % (r, r))
            shipped.append(r)
        elif kind < 0.8 and shipped:
            out.append("deliver packet%d %d" % (random.choice(shipped), r))
        elif kind < 0.99:
            out.append("ask %d %s" % (r, ask(keys)))
        else:
            out.append("show %d" % r)
    return out

def many_keys(design, lines):
    """An operation at a new key nearly always, in random order, and a packet now and then."""
    random.seed(lines)
    do = CALLS[design][0]
    out = ["replicas 2"]
    while len(out) < lines:
        if len(out) % 30_000 == 29_999:
            out += ["ship 1 p", "deliver p 2"]
        out.append("do 1 %s" % do(10 ** 9))
    return out[:lines]

def shipping(design, keys, ships):
    """A state of so many keys, shipped and delivered again and again."""
    random.seed(keys)
    out = ["replicas 2"] + ["do 1 insert \"k%d\"" % n for n in range(keys)]
    for n in range(ships):
        out += ["do 1 insert \"k%d\"" % random.randrange(keys), "ship 1 p", "deliver p 2"]
    return out

def run(binary, design, path):
    """Seconds and peak kilobytes of one run, and its output."""
    out = os.path.join(work, "out")
    words = [os.path.join(work, "peak"), out, binary, "converge", design, path]
    seconds, peak, status = subprocess.run(words, capture_output=True, text=True, check=True).stdout.split()
    assert status == "0", (binary, design, status)
    with open(out, "rb") as f:
        return float(seconds), int(peak), f.read()

def instructions(binary, design, path):
    """Millions of instructions of one run, or 0 where valgrind isn't found."""
    if not shutil.which("valgrind"):
        return 0
    words = ["valgrind", "--tool=callgrind", "--callgrind-out-file=" + os.devnull, binary, "converge", design, path]
    said = subprocess.run(words, capture_output=True, text=True).stderr
    return int(re.search(r"Collected : (\d+)", said).group(1)) / 1e6

def compare(name, design, lines, counted=False):
    path, design = os.path.join(work, "script"), os.path.join(designs, design + ".design")
    with open(path, "w") as f:
        f.write("\n".join(lines) + "\n")
    mine = [run(program, design, path) for _ in range(5)]
    theirs = [run(plain, design, path) for _ in range(5)]
    assert mine[0][2] == theirs[0][2], name + ": the outputs differ"
    a, b = min(m[0] for m in mine), min(t[0] for t in theirs)
    m, t = max(x[1] for x in mine), max(x[1] for x in theirs)
    print("%-24s %8.1f ms %8.1f ms  %5.2f   %7d kB %7d kB  %5.2f" % (name, a * 1e3, b * 1e3, a / b, m, t, m / t), flush=True)
    if counted:
        i, j = instructions(program, design, path), instructions(plain, design, path)
        if j:
            print("%24s %.0f and %.0f million instructions, ratio %.2f" % ("", i, j, i / j), flush=True)

print("what                      katara      plain       ratio   memory of both       ratio")
for design in CALLS:
    for lines in (10_000, 30_000, 90_000):
        compare("%s %d" % (design, lines), design, mixed(design, lines), lines == 30_000)
compare("many keys", "element_set", many_keys("element_set", 90_000))
compare("shipping 10,000 keys", "element_set", shipping("element_set", 10_000, 2_000))
PYTHON
