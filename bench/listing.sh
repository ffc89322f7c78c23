#!/bin/sh
# Instructions, time and peak memory of `katara list` against the plain program of listing.rs, which makes all designs of each
# size by recursion and sorts them: the first 100,000 designs of a register (there are 23,036 up to size 9), of a cart (a
# map with counts) up to size 10, and all designs up to size 8 of a type with four operations and two queries (there are 92,784). Both print
# the same lines, and run in one go; the figures are ratios. Then the listing of the register up to size 12 is gone through to its
# 1,000,001st design, the last that has a number, and 1,000 are looked for at random numbers of these (kat_bench): the seconds of both, what
# 1,000 walks from the start would take by that, and the memory of a listing that gave so many and of one that gave few. Give the programs, or
# those of ../crates are taken. Instructions are those that valgrind counts, if it is found.
here=$(cd "$(dirname "$0")" && pwd) || exit 1
program=${1:-$here/../crates/kat_program/out/kat_program}
numbers=${2:-$here/../crates/kat_bench/out/kat_bench}
work=$(mktemp -d) || exit 1
trap 'rm -rf "$work"' EXIT
rustc --edition 2021 -O -o "$work/plain" "$here/listing.rs" || exit 1
rustc --edition 2021 -O -o "$work/peak" "$here/peak.rs" || exit 1
cat >"$work/four.type" <<'TYPE'
# A counter and a flag.
type four
state n: int = 0
state on: bool = false
op add(x: nat) rank time, replica: n := n + x
op sub(x: nat) rank time, replica: n := n - x
op raise() rank time, replica: on := true
op lower() rank time, replica: on := false
query value(): int = n
query shown(): bool = on
TYPE
python3 - "$program" "$work" "$here/../examples/types" "$numbers" <<'PYTHON'
import os, re, shutil, subprocess, sys
program, work, types, numbers = sys.argv[1:5]

def run(words):
    """Seconds and peak kilobytes of one run, and its output."""
    out = os.path.join(work, "out")
    seconds, peak, status = subprocess.run([os.path.join(work, "peak"), out] + words, capture_output=True, text=True, check=True).stdout.split()
    assert status in ("0", "1"), (words, status)
    with open(out, "rb") as f:
        return float(seconds), int(peak), f.read()

def instructions(words):
    """Millions of instructions of one run, or 0 where valgrind isn't found."""
    if not shutil.which("valgrind"):
        return 0
    said = subprocess.run(["valgrind", "--tool=callgrind", "--callgrind-out-file=" + os.devnull] + words, stdout=subprocess.DEVNULL, stderr=subprocess.PIPE, text=True).stderr
    return int(re.search(r"Collected : (\d+)", said).group(1)) / 1e6

def compare(name, path, size, most):
    ours = [program, "list", path, "--size", str(size), "--designs", str(most)]
    theirs = [os.path.join(work, "plain"), path, str(size), str(most)]
    mine, plain = [run(ours) for _ in range(3)], [run(theirs) for _ in range(3)]
    assert mine[0][2] == plain[0][2], name + ": the outputs differ"
    a, b = min(m[0] for m in mine), min(p[0] for p in plain)
    m, p = max(x[1] for x in mine), max(x[1] for x in plain)
    print("%-10s %7d designs %8.1f ms %8.1f ms  %5.2f   %7d kB %7d kB" % (name, mine[0][2].count(b"\n"), a * 1e3, b * 1e3, a / b, m, p), flush=True)
    i, j = instructions(ours), instructions(theirs)
    if j:
        print("%10s %.0f and %.0f million instructions, ratio %.2f" % ("", i, j, i / j), flush=True)

print("what                          katara      plain   ratio   memory of both")
compare("register", os.path.join(types, "register.type"), 9, 100_000)
compare("cart", os.path.join(types, "cart.type"), 10, 100_000)
compare("four", os.path.join(work, "four.type"), 8, 100_000)

def listed(size, count):
    """How many designs a listing of the register gave, with `count` at random numbers looked for after it; seconds and peak kilobytes."""
    seconds, peak, text = run([numbers, "listing", os.path.join(types, "register.type"), str(size), str(count)])
    given, found = re.fullmatch(rb"(\d+) designs, (\d+) of \d+ found\n", text).groups()
    assert int(found) == count, text
    return int(given), seconds, peak

given, through, peak = listed(12, 0)
taking = listed(12, 1000)[1] - through
whole = through / 2 * 1000
print("%d designs in %.1f s; 1,000 at random numbers in %.1f s, from the start each time some %.0f s: 1/%.0f" % (given, through, taking, whole, whole / taking), flush=True)
few, _, least = listed(3, 0)
print("memory: %d kB behind %d designs, %d kB behind %d" % (peak, given, least, few), flush=True)
PYTHON
