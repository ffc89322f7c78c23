#!/usr/bin/env python3
"""Deciding conditions, and proving designs, beside z3: processor times and their ratios, in one run.

    bench/z3.py [-b PROGRAM] NAME.conditions ..     PROGRAM: kat_bench, or that of crates/ is taken

For each file: its conditions, decided with at most 2,000 leaves in one process, beside z3 on the same conditions in one process (for
each, whether some point makes all clauses true and each atom at most 0 or at least 1). If NAME.type and NAME.design are beside it:
`prove` of the design, beside z3 on the conditions under the relation that is left at the end. Then the same for all files together:
the sums, and the files of which ours takes more than half as long again as z3. Times are the best of five runs, less that of the same
program on nothing; a time below a tenth of a millisecond counts as that. The answers are compared: refuted and unsat, a point and sat.
Without z3 it says so and ends."""
import os
import resource
import shutil
import subprocess
import sys
import tempfile

LEAVES = 2000


def number(n):
    return str(n) if n >= 0 else "(- %d)" % -n


def sum_of(words):
    at = words.index("+")
    terms = [word.split(":") for word in words[:at]]
    return "(+ %s %s 0)" % (" ".join("(* %s n%s)" % (number(int(c)), v) for v, c in terms), number(int(words[at + 1])))


def smt_of(lines):
    """A condition in SMT-LIB 2."""
    out, variable = ["(push)"], 0
    for words in map(str.split, lines):
        if words[0] == "numbers":
            out += ["(declare-const n%d Real)" % v for v in range(int(words[1]))]
        elif words[0] == "var":
            variable += 1
            out.append("(declare-const p%d Bool)" % variable)
            if words[1] == "atom":
                out.append("(assert (ite p%d (<= %s 0) (>= %s 1)))" % ((variable,) + (sum_of(words[2:]),) * 2))
        elif words[0] == "clause":
            literals = ["p%d" % int(w) if int(w) > 0 else "(not p%d)" % -int(w) for w in words[1:]]
            out.append("(assert (or false %s))" % " ".join(literals))
    return out + ["(check-sat)", "(pop)"]


def conditions_in(path):
    """The conditions of a file: whether it is under the relation that is left, and its lines."""
    found = []
    with open(path) as file:
        for line in file:
            words = line.split()
            if words[:1] == ["=="]:
                found.append((words[1:2] == ["last"], []))
            elif words[:1] in (["numbers"], ["var"], ["clause"]):
                found[-1][1].append(line.rstrip("\n"))
    return found


def took(command, text):
    """The least processor time of five runs, in milliseconds, and what was said."""
    best, said = None, ""
    with tempfile.TemporaryFile("w+") as file:
        file.write(text)
        for _ in range(5):
            file.seek(0)
            before = resource.getrusage(resource.RUSAGE_CHILDREN)
            said = subprocess.run(command, stdin=file, stdout=subprocess.PIPE, text=True, check=True).stdout
            after = resource.getrusage(resource.RUSAGE_CHILDREN)
            spent = (after.ru_utime + after.ru_stime - before.ru_utime - before.ru_stime) * 1000
            best = spent if best is None else min(best, spent)
    return best, said


def main(words):
    here = os.path.dirname(os.path.abspath(__file__))
    program = os.path.join(here, "../crates/kat_bench/out/kat_bench")
    if words[:1] == ["-b"]:
        program, words = words[1], words[2:]
    if not words:
        sys.exit(__doc__)
    if not shutil.which("z3"):
        print("z3 isn't there: nothing was measured")
        return
    if not os.access(program, os.X_OK):
        sys.exit("there is no %s: `rt run` in crates/kat_bench makes it" % program)
    z3 = ["z3", "-in", "-smt2"]
    empty_z3, empty_ours = took(z3, "")[0], took([program, "conditions"], "")[0]
    sums, slow, differ = {}, [], 0
    for path in words:
        name = path[:-len(".conditions")] if path.endswith(".conditions") else path
        conditions = conditions_in(path)
        blocks = [smt_of(lines) for _, lines in conditions]
        text = "".join("== %d\n%s\nwalk %d\n" % (i, "\n".join(lines), LEAVES) for i, (_, lines) in enumerate(conditions))
        ours, said = took([program, "conditions"], text)
        theirs, answers = took(z3, "\n".join("\n".join(block) for block in blocks))
        found = [line.split()[2] for line in said.splitlines() if line.startswith("walk")]
        differ += sum({"refuted": "unsat", "point": "sat"}.get(a, b) != b for a, b in zip(found, answers.split()))
        rows = [("conditions", len(conditions), ours, theirs)]
        if os.path.exists(name + ".type") and os.path.exists(name + ".design"):
            ours, said = took([program, "verdicts", str(LEAVES), name], "")
            last = ["\n".join(block) for (is_last, _), block in zip(conditions, blocks) if is_last]
            rows.append(("prove", len(last), ours, took(z3, "\n".join(last))[0]))
        for what, count, ours, theirs in rows:
            ours, theirs = max(ours - empty_ours, 0.1), max(theirs - empty_z3, 0.1)
            print("%-36s %-10s %4d  %8.1f ms  z3 %8.1f ms  %6.2f" % (os.path.basename(name), what, count, ours, theirs, ours / theirs))
            entry = sums.setdefault(what, [0, 0.0, 0.0])
            entry[0] += count
            entry[1] += ours
            entry[2] += theirs
            if ours > 1.5 * theirs:
                slow.append("%s %s" % (os.path.basename(name), what))
    for what, (count, ours, theirs) in sums.items():
        print("all: %-31s %-10s %4d  %8.1f ms  z3 %8.1f ms  %6.2f" % ("", what, count, ours, theirs, ours / theirs))
    print("answers that differ: %d" % differ)
    print("more than half as long again as z3: %s" % (", ".join(slow) or "none"))


main(sys.argv[1:])
