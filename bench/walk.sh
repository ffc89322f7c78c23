#!/bin/sh
# Decides all conditions of the files that are given, in one run, and times it beside z3 on the same conditions in one process (for
# each, whether some point makes all clauses true and each atom at most 0 or at least 1): the best of three runs of both, in
# milliseconds, and their ratio. It needs rt, z3 and python3.
#
#     bench/walk.sh SMT FILE.conditions ..       SMT: a program that writes the files' conditions as SMT-LIB on its output
here=$(cd "$(dirname "$0")" && pwd)
[ $# -ge 2 ] || { echo "usage: walk.sh SMT FILE.conditions .." >&2; exit 1; }
smt=$1; shift
program="$here/../crates/kat_bench/out/kat_bench"
[ -x "$program" ] || (cd "$here/../crates/kat_bench" && rt run) >/dev/null || exit 1
work=$(mktemp -d) || exit 1
trap 'rm -rf "$work"' EXIT
# each condition once, with effort 2,000
cat "$@" | grep -v '^walk 3 ' > "$work/conditions"
"$smt" "$@" > "$work/all.smt2"
best() {
    for _ in 1 2 3; do
        start=$(date +%s%N)
        "$@" > "$work/out"
        end=$(date +%s%N)
        echo $(((end - start) / 1000))
    done | sort -n | head -1
}
decide() { "$program" conditions < "$work/conditions"; }
ours=$(best decide); cp "$work/out" "$work/ours"
theirs=$(best z3 "$work/all.smt2"); cp "$work/out" "$work/theirs"
echo "conditions: $(grep -c '^==' "$work/conditions"); refuted: $(grep -c '^walk .* refuted' "$work/ours"), unsat: $(grep -c '^unsat' "$work/theirs")"
awk "BEGIN { printf \"decide %.1f ms, z3 %.1f ms, ratio %.2f\\n\", $ours / 1000, $theirs / 1000, $ours / $theirs }"
