#!/bin/sh
# Instructions, time and peak memory of `katara converge` against the plain program of converge.rs, on scripts of
# 10,000, 30,000 and 100,000 lines over 32 replicas. Both run in one go; the figures are ratios. Instructions are those
# that valgrind counts (where it is found): they are the same on every run, while times vary with what else runs.
here=$(cd "$(dirname "$0")" && pwd) || exit 1
work=$(mktemp -d) || exit 1
trap 'rm -rf "$work"' EXIT
"$here/../katara" converge "$here/../examples/max.design" "$here/../examples/first.script" >/dev/null || exit 1
program="$here/../crates/kat_program/out/kat_program"
rustc --edition 2021 -O -o "$work/plain" "$here/converge.rs" || exit 1
rustc --edition 2021 -O -o "$work/peak" "$here/peak.rs" || exit 1
python3 - "$program" "$work/plain" "$here/../examples/max.design" "$work" <<'PYTHON'
import os, random, re, shutil, subprocess, sys
program, plain, design, work = sys.argv[1:5]

def script(lines):
    random.seed(lines)
    out, shipped = ["replicas 32"], []
    while len(out) < lines:
        kind, r = random.random(), random.randint(1, 32)
        if kind < 0.5:
            out.append("do %d add %d" % (r, random.randint(0, 10 ** 12)))
        elif kind < 0.65:
            out.append("ship %d packet%d" % (r, r))
            shipped.append(r)
        elif kind < 0.8 and shipped:
            out.append("deliver packet%d %d" % (random.choice(shipped), r))
        elif kind < 0.95:
            out.append("ask %d get" % r)
        else:
            out.append("show %d" % r)
    path = os.path.join(work, "script%d" % lines)
    with open(path, "w") as f:
        f.write("\n".join(out) + "\n")
    return path

def run(binary, path):
    """Seconds and peak kilobytes of one run, and its output."""
    out = os.path.join(work, "out")
    words = [os.path.join(work, "peak"), out, binary, "converge", design, path]
    seconds, peak, status = subprocess.run(words, capture_output=True, text=True, check=True).stdout.split()
    assert status == "0", (binary, status)
    with open(out, "rb") as f:
        return float(seconds), int(peak), f.read()

def instructions(binary, path):
    """Millions of instructions of one run, or 0 where valgrind isn't found."""
    if not shutil.which("valgrind"):
        return 0
    words = ["valgrind", "--tool=callgrind", "--callgrind-out-file=" + os.devnull, binary, "converge", design, path]
    said = subprocess.run(words, capture_output=True, text=True).stderr
    return int(re.search(r"Collected : (\d+)", said).group(1)) / 1e6

print("lines   katara    plain     time ratio   memory katara   plain      memory ratio")
for lines in (10_000, 30_000, 100_000):
    path = script(lines)
    mine = [run(program, path) for _ in range(9)]
    theirs = [run(plain, path) for _ in range(9)]
    assert mine[0][2] == theirs[0][2], "the outputs differ"
    a, b = min(m[0] for m in mine), min(t[0] for t in theirs)
    m, t = max(x[1] for x in mine), max(x[1] for x in theirs)
    print("%6d  %6.1f ms %6.1f ms   %.2f         %6d kB       %6d kB  %.2f" % (lines, a * 1e3, b * 1e3, a / b, m, t, m / t))
    i, j = instructions(program, path), instructions(plain, path)
    if j:
        print("        %.0f and %.0f million instructions, ratio %.2f" % (i, j, i / j))
PYTHON
