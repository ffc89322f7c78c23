#!/bin/sh
# Time of `katara synth` beside the plain program of synth.rs, which lists the same designs and tries them on the same histories
# and proves nothing, and beside a second implementation that takes the same words, in one run: the seconds (of katara and the plain
# program the fastest of three runs), the ratios, and whether all found the same design and passed the same designs. Instructions are
# those that valgrind counts, if it is found, and where they go: into the listing of the designs, the cards of histories that were
# cited before, the report, the proofs with the file (each with all that it calls), and the rest, which is the type's and the designs'
# answers on other histories. All kinds and the default limits unless the row says otherwise. It needs rustc and python3.
#
#     bench/synth.sh BINARY REFERENCE [NAME ..]     BINARY, REFERENCE: the programs, - for no REFERENCE; NAME: some of the rows alone
[ $# -ge 2 ] || { echo "usage: synth.sh BINARY REFERENCE [NAME ..]" >&2; exit 1; }
work=$(mktemp -d) || exit 1
trap 'rm -rf "$work"' EXIT
here=$(cd "$(dirname "$0")" && pwd) || exit 1
rustc --edition 2021 -O -o "$work/plain" "$here/synth.rs" || exit 1
rustc --edition 2021 -O -o "$work/peak" "$here/peak.rs" || exit 1
python3 - "$here/../examples/gallery" "$work" "$@" <<'PYTHON'
import json, os, re, shutil, subprocess, sys
gallery, work, program, reference, *names = sys.argv[1:]
plain = os.path.join(work, "plain")

# the type in the gallery, how many designs its listing has if that is known, the size and the kinds
ROWS = [
    ("register", 23_036, "9", None),
    ("enable_wins_flag", None, "8", None),
    ("two_phase_set", 16_780, "8", None),
    ("disable_wins_flag", None, "9", "cell"),
    ("element_set", 73_584, "9", None),
    ("element_set", None, "9", "table"),
    ("settings", 19_304, "10", "table"),
    ("signed_counter", 1_066, "7", None),
    ("cart", 23, "4", None),
]

def run(words):
    """Seconds, peak kilobytes and status of one run, and its output."""
    out = os.path.join(work, "out")
    seconds, peak, status = subprocess.run([os.path.join(work, "peak"), out] + words, capture_output=True, text=True, check=True).stdout.split()
    with open(out, "rb") as f:
        return float(seconds), int(peak), int(status) >> 8, f.read()

# what the search calls, with all that is called from there
PARTS = [("listing", "Listing::"), ("cards", "differs_by"), ("report", "::push_|Findings::"), ("proofs and file", "prove_design")]

def parts(path):
    """How many of 100 instructions go into the parts of a search, by a file of callgrind."""
    names, spent, function, callee, called = {}, dict.fromkeys((what for what, _ in PARTS), 0), "", "", False
    def name(word):
        number, _, text = word.partition(" ")
        if text:
            names[number] = text
        return names[number]
    with open(path) as f:
        for line in f.read().splitlines():
            if line.startswith("fn="):
                function = name(line[3:])
            elif line.startswith("cfn="):
                callee = name(line[4:])
            elif line.startswith("calls="):
                called = True
            elif line.startswith(("summary:", "totals:")):
                whole = int(line.split()[1])
            elif called:
                called = False
                if function == "kat_search::search::synth":
                    for what in [what for what, pattern in PARTS if re.search(pattern, callee)]:
                        spent[what] += int(line.split()[-1])
    shares = [(what, 100 * count / whole) for what, count in spent.items()]
    return ", ".join("%s %.1f" % share for share in shares) + ", histories and the rest %.1f" % (100 - sum(share for _, share in shares))

def instructions(words, told=False):
    """Millions of instructions of one run, or 0 if valgrind isn't found; and where they go, if that is asked for."""
    if not shutil.which("valgrind"):
        return 0, ""
    out = os.path.join(work, "callgrind")
    said = subprocess.run(["valgrind", "--tool=callgrind", "--callgrind-out-file=" + out] + words, stdout=subprocess.DEVNULL, stderr=subprocess.PIPE, text=True).stderr
    return int(re.search(r"Collected : (\d+)", said).group(1)) / 1e6, parts(out) if told else ""

def found(status, text):
    """The design that was found, or the last line of a report."""
    return json.loads(text)[3] if status == 0 else text.splitlines()[-1:]

def compare(name, size, kinds):
    """Both programs on a row: their seconds and their instructions, and whether they passed the same designs."""
    path = os.path.join(gallery, name, name + ".type")
    ours = [program, "synth", path, "--size", size] + (["--kinds", kinds] if kinds else [])
    mine = [run(ours) for _ in range(3)]
    assert mine[0][2] == 0, (name, mine[0][2:])
    file = json.loads(mine[0][3])
    passed = [number for number, cause in file[6]]
    theirs = [plain, path, size, str(len(passed) + 1)] + ([kinds] if kinds else [])
    others = [run(theirs) for _ in range(3)]
    told = re.fullmatch(rb"\[(.*)\] (\d+) (.*)\n", others[0][3])
    numbers = [int(n) for n in told.group(1).split(b", ")]
    same = numbers[:-1] == passed and json.loads(told.group(3)) == file[3]
    return ours, theirs, min(mine), min(others), max(m[1] for m in mine), numbers[-1], same

print("%-17s %8s %7s %10s %10s %6s %13s %6s %11s" % ("type", "designs", "tried", "katara", "plain", "ratio", "independent", "ratio", "memory"))
for name, designs, size, kinds in ROWS:
    if names and name not in names:
        continue
    ours, theirs, mine, other, peak, tried, same = compare(name, size, kinds)
    row = "%-17s %8s %7d %8.3f s %8.3f s %6.2f" % (name, designs or "", tried, mine[0], other[0], mine[0] / other[0])
    if reference != "-":
        third = run([reference] + ours[1:])
        same = same and found(*third[2:]) == found(*mine[2:])
        row += " %11.1f s %6.0f" % (third[0], third[0] / mine[0])
    print(row + " %8d kB%s" % (peak, "" if same else "  the designs differ"), flush=True)
    (i, shares), (j, _) = instructions(ours, True), instructions(theirs)
    if j:
        print("%17s %.0f and %.0f million instructions, ratio %.2f; of 100: %s" % ("", i, j, i / j, shares), flush=True)
PYTHON
