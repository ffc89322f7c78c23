#!/bin/sh
# Instructions and time of `katara run` beside `katara converge` on the same proved design and script: the price of checking the
# proof. A register and a cart, on 1,000, 10,000 and 30,000 lines over 32 replicas; designs.sh has converge beside plain programs. The
# figures are ratios of one go. Give the program, or ../katara's is taken. Instructions are those that valgrind counts, if it is found.
here=$(cd "$(dirname "$0")" && pwd) || exit 1
program=${1:-$here/../crates/kat_program/out/kat_program}
work=$(mktemp -d) || exit 1
trap 'rm -rf "$work"' EXIT
python3 - "$program" "$here/../examples" "$work" <<'PYTHON'
import os, random, re, shutil, subprocess, sys, time
program, examples, work = sys.argv[1:4]

def key():
    return '"key%d"' % random.randrange(200)

CALLS = {
    "register": (lambda: "set %d" % random.randint(-10 ** 12, 10 ** 12), lambda: "get"),
    "cart": (lambda: "add %s %d" % (key(), random.randint(0, 99)), lambda: "count " + key()),
}

def script(name, lines):
    do, ask = CALLS[name]
    random.seed(lines)
    out, shipped = ["replicas 32"], []
    while len(out) < lines:
        kind, r = random.random(), random.randint(1, 32)
        if kind < 0.5:
            out.append("do %d %s" % (r, do()))
        elif kind < 0.65:
            out.append("ship %d packet%d" % (r, r))
            shipped.append(r)
        elif kind < 0.8 and shipped:
            out.append("deliver packet%d %d" % (random.choice(shipped), r))
        else:
            out.append("ask %d %s" % (r, ask()))
    path = os.path.join(work, "script")
    with open(path, "w") as f:
        f.write("\n".join(out) + "\n")
    return path

def seconds(words):
    best = None
    for _ in range(3):
        start = time.perf_counter()
        out = subprocess.run(words, capture_output=True, text=True, check=True).stdout
        spent = time.perf_counter() - start
        best = spent if best is None else min(best, spent)
    return best, out

def instructions(words):
    if not shutil.which("valgrind"):
        return None
    said = subprocess.run(["valgrind", "--tool=callgrind", "--callgrind-out-file=/dev/null"] + words, capture_output=True, text=True).stderr
    return int(re.search(r"Collected : (\d+)", said).group(1))

for name in CALLS:
    design = os.path.join(examples, "runs", name + ".design")
    kind = os.path.join(examples, "types", name + ".type")
    for lines in (1_000, 10_000, 30_000):
        path = script(name, lines)
        ours = [program, "run", kind, design, path]
        weak = [program, "converge", design, path]
        spent, out = seconds(ours)
        weakly, same = seconds(weak)
        assert same == "unproved\n" + out, name
        line = "%s, %d lines: run %.1f ms, converge %.1f ms, ratio %.2f" % (name, lines, spent * 1000, weakly * 1000, spent / weakly)
        a, b = instructions(ours), instructions(weak)
        if a is not None:
            line += "; instructions %.1f and %.1f million, ratio %.2f" % (a / 1e6, b / 1e6, a / b)
        print(line)
PYTHON
