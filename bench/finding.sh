#!/bin/sh
# Time and memory of `katara find` for each type file, single runs; whether `katara check` accepts what it writes, and whether a
# second implementation does that takes the same words. It ends with 1 if one doesn't accept a file. It needs rustc and python3.
#
#     bench/finding.sh FIND KATARA REFERENCE TYPE ..     FIND, KATARA: the programs of `find` and `check`; REFERENCE: the independent
#                                                        program, - for none; TYPE: type files
[ $# -ge 4 ] || { echo "usage: finding.sh FIND KATARA REFERENCE TYPE .." >&2; exit 1; }
work=$(mktemp -d) || exit 1
trap 'rm -rf "$work"' EXIT
here=$(cd "$(dirname "$0")" && pwd) || exit 1
rustc --edition 2021 -O -o "$work/peak" "$here/peak.rs" || exit 1
python3 -B - "$work" "$@" <<'PYTHON'
import os, subprocess, sys
work, find, katara, reference, *types = sys.argv[1:]
made = os.path.join(work, "made")


def accepts(program, path):
    ended = subprocess.run([program, "check", path, made], stdout=subprocess.PIPE, stderr=subprocess.DEVNULL)
    return ended.stdout.strip() == b"accepted"


rows, refused = [], 0
for path in types:
    words = [os.path.join(work, "peak"), made, find, "find", path]
    seconds, peak, status = subprocess.run(words, stdout=subprocess.PIPE, stderr=subprocess.DEVNULL, text=True, check=True).stdout.split()
    status = int(status) >> 8
    said = "found" if status == 0 else "ended with %d" % status
    if status == 0:
        wrong = [program for program in (katara, reference) if program != "-" and not accepts(program, path)]
        said += "".join(", NOT ACCEPTED by " + os.path.basename(program) for program in wrong)
        refused += len(wrong)
    rows.append((float(seconds), int(peak), path))
    print("%-32s %6.2f s %8.1f MB  %s" % (os.path.basename(path)[:-len(".type")], float(seconds), int(peak) / 1000, said), flush=True)
print("%d types; the slowest %.2f s, the largest %.1f MB" % (len(rows), max(row[0] for row in rows), max(row[1] for row in rows) / 1000))
sys.exit(1 if refused else 0)
PYTHON
