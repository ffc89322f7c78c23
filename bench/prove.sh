#!/bin/sh
# What `prove` answers of designs with 2,000 leaves for each walk, against a second implementation and z3: processor times
# and their ratios. The types and designs are those of a folder with NAME.type, NAME.design and NAME.conditions files. A word that the
# second implementation prints for each, `NAME verdict`, is compared with ours. z3 decides as many conditions as the files have under
# the relation that is left at the end. It needs rt, z3 and python3.
#
#     bench/prove.sh FOLDER REFERENCE SMT     REFERENCE: a program that takes the leaves and the folder, and prints NAME VERDICT lines
#                                             SMT: a program that writes the conditions of NAME.conditions files as SMT-LIB
here=$(cd "$(dirname "$0")" && pwd)
[ $# -eq 3 ] || { echo "usage: prove.sh FOLDER REFERENCE SMT" >&2; exit 1; }
folder=$1; reference=$2; smt=$3
program="$here/../crates/kat_bench/out/kat_bench"
[ -x "$program" ] || (cd "$here/../crates/kat_bench" && rt run -- verdicts 1) >/dev/null || exit 1
work=$(mktemp -d) || exit 1
trap 'rm -rf "$work"' EXIT
for ty in "$folder"/*.type; do echo "${ty%.type}"; done > "$work/names"
# processor time of a command in microseconds, the least of so many runs: the machine may be busy
cpu() {
    runs=$1; shift
    for _ in $(seq "$runs"); do
        python3 -c 'import resource, subprocess, sys
subprocess.run(sys.argv[2:], stdout=open(sys.argv[1], "w"))
used = resource.getrusage(resource.RUSAGE_CHILDREN)
print(int((used.ru_utime + used.ru_stime) * 1000000))' "$work/out" "$@"
    done | sort -n | head -1
}
ours=$(cpu 3 xargs -a "$work/names" "$program" verdicts 2000); sed 's#^.*/##' "$work/out" | cut -d' ' -f1,2 > "$work/ours"
theirs=$(cpu 1 "$reference" 2000 "$folder"); cut -d' ' -f1,2 "$work/out" > "$work/theirs"
for ty in "$folder"/*.conditions; do echo "$ty"; done | xargs "$smt" > "$work/all.smt2"
z3_time=$(cpu 3 z3 "$work/all.smt2")
echo "designs: $(wc -l < "$work/ours"); verdicts that differ: $(diff "$work/ours" "$work/theirs" | grep -c '^[<>]'); conditions of z3: $(grep -c '^unsat\|^sat' "$work/out")"
awk "BEGIN { printf \"prove %.1f ms, reference %.0f ms, ratio %.0f; z3 %.1f ms, ratio %.2f\\n\", $ours / 1000, $theirs / 1000, $theirs / $ours, $z3_time / 1000, $ours / $z3_time }"
