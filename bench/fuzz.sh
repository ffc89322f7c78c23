#!/bin/sh
# Fuzzes a program with all its commands: files that are types, designs, scripts, states, actions, questions and reports, changed from the
# examples with the words of fuzz.words. fuzz.c, which is loaded into the program, says how: the program is tried as it was built,
# and which blocks of its code were reached is seen by breakpoints. Each call must end within a second with a status that is due, one
# line on standard error or none, and nothing written before a refusal; memory must be given back once and not written past;
# after `run` the same is asked of `model`, and what `migrate` wrote is given to `check`.
#     bench/fuzz.sh [PROGRAM] [CALLS] [SECONDS] [SEED] [FOLDER]
# Without words: 1,000,000 calls of ../crates/kat_program/out/kat_program. It tells how far it is each minute, and at last how many
# calls of each command ended with which status. What it found is in the folder, which stays if one is given: `crash-`,
# `hang-`, `slow-` and `wrong-` with the files and words of a call, `input-` for what reached further blocks. Its status is 0
# only if there is no crash, no hang and nothing wrong. It needs gcc, objdump and python3.
here=$(cd "$(dirname "$0")" && pwd) || exit 1
program=${1:-$here/../crates/kat_program/out/kat_program}
program=$(cd "$(dirname "$program")" && pwd)/$(basename "$program") || exit 1
work=$(mktemp -d) || exit 1
trap 'rm -rf "$work"' EXIT
folder=${5:-$work/found}
mkdir -p "$folder" || exit 1
gcc -O2 -shared -fPIC -o "$work/fuzz.so" "$here/fuzz.c" -ldl || exit 1
# the heads of blocks: where a jump or a call leads to, and what comes after a jump
objdump -d --no-show-raw-insn "$program" | python3 -c '
import re, sys
heads, after = set(), False
for line in sys.stdin:
    it = re.match(r"\s+([0-9a-f]+):\s+(\S+)(?:\s+([0-9a-f]+)\b)?", line)
    if not it:
        continue
    if after:
        heads.add(it[1])
    jumps = it[2].startswith("j") or it[2].startswith("call")
    after = it[2].startswith("j")
    if jumps and it[3]:
        heads.add(it[3])
print(*sorted(heads), sep="\n")' >"$work/blocks"
# the calls of the examples, of the gallery and of each kind of file
python3 - "$here/../examples" >"$work/seeds" <<'PYTHON'
import glob, os, sys
top = os.path.abspath(sys.argv[1])
os.chdir(top)
says = lambda *words: print(*[f"{top}/{it}" if os.path.isfile(it) else it for it in words], sep="\t")
for line in open("cases"):
    words = line.split()
    if len(words) > 3 and not line.startswith("#") and all(not it.startswith("/") and not os.path.isdir(it) for it in words):
        says(*words[2:])
for design in sorted(glob.glob("gallery/*/*.design")):
    base = design.removesuffix(".design")
    says("check", f"{base}.type", design)
    says("migrate", f"{base}.type", design)
    if os.path.isfile(f"{base}.script"):
        for command in ("run", "deltas"):
            says(command, f"{base}.type", design, f"{base}.script")
        says("converge", design, f"{base}.script")
for type in sorted(glob.glob("gallery/*/*.type") + glob.glob("types/*.type")):
    says("list", type, "--size=3", "--designs=20")
for report in sorted(glob.glob("gallery/*/*.report") + glob.glob("reports/*.report")):
    type = report.removesuffix(".report") + ".type"
    if os.path.isfile(type):
        says("audit", type, report, "--size=3", "--designs=20")
PYTHON
LD_PRELOAD="$work/fuzz.so" "$program" "$work/seeds" "$here/fuzz.words" "$work/blocks" "$folder" "${2:-1000000}" "${3:-86400}" "${4:-1}"
