#!/bin/sh
# Instructions, time and peak memory of `katara model` against the plain program of model.rs, on scripts of 10,000,
# 30,000 and 90,000 lines over 32 replicas: on 200 keys of a table with 64 asks in all, on 200 keys with an ask in each
# hundred lines, and on as many keys as lines with one ask. Both run in one go and must print the same; the figures are
# ratios. Then `katara model` alone, where each new key is followed by an ask: so that each ask goes on from the one before, and so
# that none does, since the key sorts before an operation that was known. Instructions are those that valgrind counts (where it
# is found): they are the same on every run, while times
# vary with what else runs. The program is the one given, or the one that ../katara builds.
here=$(cd "$(dirname "$0")" && pwd) || exit 1
work=$(mktemp -d) || exit 1
trap 'rm -rf "$work"' EXIT
type="$here/../examples/types/cart.type"
program=$1
if [ -z "$program" ]; then
    "$here/../katara" model "$type" "$here/../examples/types/cart.script" >/dev/null || exit 1
    program="$here/../crates/kat_program/out/kat_program"
fi
rustc --edition 2021 -O -o "$work/plain" "$here/model.rs" || exit 1
rustc --edition 2021 -O -o "$work/peak" "$here/peak.rs" || exit 1
python3 - "$program" "$work/plain" "$type" "$work" <<'PYTHON'
import os, random, re, shutil, subprocess, sys
program, plain, kind, work = sys.argv[1:5]

def script(lines, asks, keys):
    """A script of so many lines, of which so many ask, evenly spread, with so many keys."""
    random.seed(lines + asks + keys)
    out, shipped = ["replicas 32"], []
    while len(out) < lines:
        chance, r = random.random(), random.randint(1, 32)
        if (len(out) + 1) * asks // lines > len(out) * asks // lines:
            out.append('ask %d count "item%d"' % (r, random.randrange(keys)))
        elif chance < 0.6:
            out.append('do %d add "item%d" %d' % (r, random.randrange(keys), random.randint(0, 10 ** 12)))
        elif chance < 0.8:
            out.append("ship %d packet%d" % (r, r))
            shipped.append(r)
        elif shipped:
            out.append("deliver packet%d %d" % (random.choice(shipped), r))
    path = os.path.join(work, "script%d.%d.%d" % (lines, asks, keys))
    with open(path, "w") as f:
        f.write("\n".join(out) + "\n")
    return path

def run(binary, path):
    """Seconds and peak kilobytes of one run, and its output."""
    out = os.path.join(work, "out")
    words = [os.path.join(work, "peak"), out, binary, "model", kind, path]
    seconds, peak, status = subprocess.run(words, capture_output=True, text=True, check=True).stdout.split()
    assert status == "0", (binary, status)
    with open(out, "rb") as f:
        return float(seconds), int(peak), f.read()

def instructions(binary, path):
    """Millions of instructions of one run, or 0 where valgrind isn't found."""
    if not shutil.which("valgrind"):
        return 0
    words = ["valgrind", "--tool=callgrind", "--callgrind-out-file=" + os.devnull, binary, "model", kind, path]
    said = subprocess.run(words, capture_output=True, text=True).stderr
    return int(re.search(r"Collected : (\d+)", said).group(1)) / 1e6

print("lines    keys  asks  katara    plain     time ratio   memory katara   plain      memory ratio")
cases = [(10_000, 200, 64, 7), (30_000, 200, 64, 7), (90_000, 200, 64, 7), (10_000, 200, 100, 5), (30_000, 200, 300, 3), (90_000, 200, 900, 2)]
cases += [(lines, lines, 1, 3) for lines in (10_000, 30_000, 90_000)]
for lines, keys, asks, rounds in cases:
    path = script(lines, asks, keys)
    mine = [run(program, path) for _ in range(rounds)]
    theirs = [run(plain, path) for _ in range(rounds)]
    assert mine[0][2] == theirs[0][2], "the outputs differ"
    assert mine[0][2].count(b"\n") == asks
    a, b = min(m[0] for m in mine), min(t[0] for t in theirs)
    m, t = max(x[1] for x in mine), max(x[1] for x in theirs)
    print("%6d %6d %5d %7.1f ms %7.1f ms   %.2f         %6d kB       %6d kB  %.2f" % (lines, keys, asks, a * 1e3, b * 1e3, a / b, m, t, m / t), flush=True)
    if asks > 300 or keys > 30_000:
        continue   # callgrind would take minutes
    i, j = instructions(program, path), instructions(plain, path)
    if j:
        print("        %.0f and %.0f million instructions, ratio %.2f" % (i, j, i / j), flush=True)

def followed(keys):
    """Each key is followed by an ask."""
    out = ["replicas 1"]
    for key in range(keys):
        out += ['do 1 add "item%d" 1' % (key * 7919 % keys), 'ask 1 count "item%d"' % key]
    return out

def behind_a_late_one(keys):
    """The same, where each key comes from another replica and sorts before an operation that was known from the first ask on."""
    out = ["replicas 2", 'do 1 add "late" 1 at 1000000']
    for key in range(keys):
        out += ['do 2 add "item%d" 1' % (key * 7919 % keys), "ship 2 packet", "deliver packet 1", 'ask 1 count "item%d"' % key]
    return out

for name, lines, most in (("followed by an ask", followed, 49_000), ("the same, before a late operation", behind_a_late_one, 4_000)):
    print("each new key %s" % name)
    for keys in (500, 1_000, 2_000, 4_000, 16_000, 49_000):
        if keys > most:
            continue   # minutes and hours
        path = os.path.join(work, "%s%d" % (lines.__name__, keys))
        with open(path, "w") as f:
            f.write("\n".join(lines(keys)) + "\n")
        seconds, peak, _ = run(program, path)
        print("%6d keys  %8.1f ms  %6d kB" % (keys, seconds * 1e3, peak), flush=True)
        i = instructions(program, path) if keys <= 2_000 else 0
        if i:
            print("             %.0f million instructions" % i, flush=True)
PYTHON
