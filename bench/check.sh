#!/bin/sh
# Checks the design files that are given, each against the type file beside it, and times all of it beside z3 on the same
# conditions in one process (for each, whether some point makes all clauses true and each atom at most 0 or at least 1): the best of
# three runs of both, in milliseconds, and their ratio; and the instructions of the checks, where valgrind is there. Files without a
# proof are passed over. It needs rt, z3 and python3.
#
#     bench/check.sh SMT NAME.design ..       SMT: a program that writes the conditions of NAME.conditions files as SMT-LIB
here=$(cd "$(dirname "$0")" && pwd)
[ $# -ge 2 ] || { echo "usage: check.sh SMT NAME.design .." >&2; exit 1; }
smt=$1; shift
program="$here/../crates/kat_program/out/kat_program"
[ -x "$program" ] || (cd "$here/../crates/kat_program" && rt run) >/dev/null || exit 1
work=$(mktemp -d) || exit 1
trap 'rm -rf "$work"' EXIT
for design in "$@"; do
    name=${design%.design}
    "$program" check "$name.type" "$design" > "$work/answer" 2>/dev/null && echo "$name" >> "$work/names"
done
[ -s "$work/names" ] || { echo "no file is accepted" >&2; exit 1; }
# the conditions under the relation that is left at the end: those of the file
sed 's/$/.conditions/' "$work/names" | xargs "$smt" > "$work/all.smt2"
best() {
    for _ in 1 2 3; do
        start=$(date +%s%N)
        "$@" > "$work/out"
        end=$(date +%s%N)
        echo $(((end - start) / 1000))
    done | sort -n | head -1
}
check() { while read -r name; do "$program" check "$name.type" "$name.design"; done < "$work/names"; }
ours=$(best check); cp "$work/out" "$work/ours"
theirs=$(best z3 "$work/all.smt2"); cp "$work/out" "$work/theirs"
echo "files: $(wc -l < "$work/names"), accepted: $(grep -c '^accepted' "$work/ours"); conditions of z3: $(grep -c '^unsat\|^sat' "$work/theirs")"
awk "BEGIN { printf \"check %.1f ms, z3 %.1f ms, ratio %.2f\\n\", $ours / 1000, $theirs / 1000, $ours / $theirs }"
command -v valgrind > /dev/null || exit 0
total=0
while read -r name; do
    count=$(valgrind --tool=callgrind --callgrind-out-file="$work/calls" "$program" check "$name.type" "$name.design" 2>&1 >/dev/null | sed -n 's/.*Collected : //p')
    total=$((total + count))
done < "$work/names"
awk "BEGIN { printf \"instructions of the checks: %.1f million\\n\", $total / 1000000 }"
