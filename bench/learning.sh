#!/bin/sh
# What the further search finds if the walk gives up: decides the conditions of the files with 1, 10, 100 and 2,000 leaves, and as many
# lines of the further search. For each effort: at how many the walk gives up (the files have its outcomes, of a second implementation, as
# lines `walk EFFORT ..` after each condition); how many of these are refuted, end at a point, and stay undecided; the lines of the
# refutations; and the conflicts of minisat, if it is found, on the clauses of a condition with those of the refutation's `l` lines,
# which is what the search knows of its numbers. Then the best of three runs over all of these, in milliseconds, and how many million
# instructions the walk and the further search take, where valgrind is found. Conditions that stay undecided are named with what
# z3 says, if it is found. Conditions whose outcome the files don't have at an effort are passed over there. It needs rt and python3.
#
#     bench/learning.sh [-b PROGRAM] FILE.conditions ..       PROGRAM: kat_bench, or that of crates/ is taken
here=$(cd "$(dirname "$0")" && pwd) || exit 1
program="$here/../crates/kat_bench/out/kat_bench"
[ "$1" = -b ] && { program=$2; shift 2; }
[ $# -ge 1 ] || { echo "usage: learning.sh [-b PROGRAM] FILE.conditions .." >&2; exit 1; }
[ -x "$program" ] || (cd "$here/../crates/kat_bench" && rt run) >/dev/null || exit 1
work=$(mktemp -d) || exit 1
trap 'rm -rf "$work"' EXIT
python3 - "$program" "$work" "$@" <<'PYTHON'
import os, re, shutil, subprocess, sys, time
program, work, *files = sys.argv[1:]

# the conditions: name, lines that say it, and the walk's outcome with each effort
conditions = []
for file in files:
    with open(file) as f:
        for line in f:
            words = line.split()
            if words[:1] == ["=="]:
                conditions.append((os.path.basename(file)[:-11] + " " + " ".join(words[1:]), [], {}))
            elif words[:1] in (["numbers"], ["var"], ["clause"]):
                conditions[-1][1].append(line)
            elif words[:1] == ["walk"]:
                conditions[-1][2][int(words[1])] = words[2]

def decided(chosen, effort):
    """The outcomes of the conditions with an effort, each with the lines of its refutation, and the run's milliseconds."""
    text = "".join("== %d\n%swalk %d\n" % (i, "".join(c[1]), effort) for i, c in enumerate(chosen))
    path = os.path.join(work, "conditions")
    with open(path, "w") as f:
        f.write(text)
    best = None
    for _ in range(3):
        began = time.time()
        with open(path) as f:
            said = subprocess.run([program, "conditions"], stdin=f, stdout=subprocess.PIPE, text=True, check=True).stdout
        took = (time.time() - began) * 1e3
        best = took if best is None else min(best, took)
    found = []
    for line in said.splitlines():
        words = line.split()
        if words[0] == "walk":
            found.append((words[2], []))
        elif words[0] == "line":
            found[-1][1].append(words[1:])
        elif words[0] == "refused":
            raise SystemExit("a refutation isn't accepted")
    return found, best

def clauses_of(condition, lines):
    """The clauses of a condition, and those of a refutation's `l` lines."""
    own = [[int(w) for w in line.split()[1:]] for line in condition[1] if line.startswith("clause")]
    more = [[int(w) for w in line[1:line.index(":")]] for line in lines if line[0] == "l"]
    return own + more

def conflicts(condition, lines):
    """The conflicts of minisat."""
    clauses = clauses_of(condition, lines)
    path = os.path.join(work, "cnf")
    with open(path, "w") as f:
        f.write("p cnf %d %d\n" % (max((abs(k) for c in clauses for k in c), default=0), len(clauses)))
        f.writelines(" ".join(map(str, c + [0])) + "\n" for c in clauses)
    said = subprocess.run(["minisat", "-verb=1", path], stdout=subprocess.PIPE, stderr=subprocess.DEVNULL, text=True).stdout
    assert "UNSATISFIABLE" in said, condition[0]
    told = re.search(r"conflicts +: (\d+)", said)
    return int(told.group(1)) if told else 0

def smt(condition):
    """The condition for z3: each atom is at most 0 or at least 1, over fractions."""
    def sum_of(words):
        number = lambda n: str(n) if n >= 0 else "(- %d)" % -n
        at = words.index("+")
        return "(+ %s %s 0)" % (" ".join("(* %s n%s)" % (number(int(w.split(":")[1])), w.split(":")[0]) for w in words[:at]), number(int(words[at + 1])))
    out, variable = [], 0
    for words in map(str.split, condition[1]):
        if words[0] == "numbers":
            out += ["(declare-const n%d Real)" % v for v in range(int(words[1]))]
        elif words[0] == "var":
            variable += 1
            out.append("(declare-const p%d Bool)" % variable)
            if words[1] == "atom":
                out.append("(assert (ite p%d (<= %s 0) (>= %s 1)))" % ((variable,) + (sum_of(words[2:]),) * 2))
        else:
            out.append("(assert (or false %s))" % " ".join("p" + w if w[0] != "-" else "(not p%s)" % w[1:] for w in words[1:]))
    return "\n".join(out + ["(check-sat)"])

def judged(condition):
    """What z3 says of a condition."""
    if not shutil.which("z3"):
        return ""
    said = subprocess.run(["z3", "-in", "-T:60"], input=smt(condition), stdout=subprocess.PIPE, text=True).stdout
    return said.split()[0] if said.split() else "unknown"

def counted(path):
    """Millions of instructions of a run over a file of conditions, and of the further search among them."""
    out = os.path.join(work, "callgrind")
    with open(path) as f:
        subprocess.run(["valgrind", "--tool=callgrind", "--callgrind-out-file=" + out, program, "conditions"], stdin=f, stdout=subprocess.DEVNULL, stderr=subprocess.DEVNULL, check=True)
    said = subprocess.run(["callgrind_annotate", "--inclusive=yes", "--threshold=100", out], stdout=subprocess.PIPE, text=True).stdout
    counts = [(int(count.replace(",", "")), name) for count, name in re.findall(r"^ *([\d,]+) +\([^)]*\) +(.*)$", said, re.M)]
    return counts[0][0] / 1e6, max((count for count, name in counts if "decide_further" in name), default=0) / 1e6

def instructions():
    """Millions of instructions of the walk, and of the further search, over what was decided last; None without valgrind."""
    if not shutil.which("valgrind"):
        return None
    path, unasked = os.path.join(work, "conditions"), os.path.join(work, "unasked")
    with open(path) as f, open(unasked, "w") as g:
        g.writelines(line for line in f if not line.startswith("walk"))
    whole, further = counted(path)
    return whole - further - counted(unasked)[0], further

print("%d conditions" % len(conditions))
left = {}
for effort in (1, 10, 100, 2000):
    known = [c for c in conditions if effort in c[2]]
    given_up = [c for c in known if c[2][effort] in ("spent", "rows", "wide")]
    if not given_up:
        print("effort %d: the walk decides all %d" % (effort, len(known)))
        continue
    found, took = decided(given_up, effort)
    refuted = [(c, lines) for c, (what, lines) in zip(given_up, found) if what == "refuted"]
    points = sum(what == "point" for what, _ in found)
    stay = [c for c, (what, _) in zip(given_up, found) if what not in ("refuted", "point")]
    learned, linear = sum(line[0] == "r" for _, lines in refuted for line in lines), sum(line[0] == "l" for _, lines in refuted for line in lines)
    row = "effort %d: the walk gives up at %d of %d; then %d are refuted with %d lines (%d r, %d l), %d end at a point, %d stay; %.0f ms" % (
        effort, len(given_up), len(known), len(refuted), learned + linear, learned, linear, points, len(stay), took)
    if shutil.which("minisat"):
        row += "; minisat has %d conflicts" % sum(conflicts(c, lines) for c, lines in refuted)
    both = instructions()
    if both:
        row += "; %.0f million instructions walk, %.0f further" % both
    print(row, flush=True)
    for c in stay:
        left.setdefault(c[0], (c, []))[1].append(effort)
for name, (condition, efforts) in left.items():
    if efforts[-1] >= 2000:
        print("stays undecided with %s: %s %s" % (", ".join(map(str, efforts)), name, judged(condition)), flush=True)
PYTHON
