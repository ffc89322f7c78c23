#!/bin/sh
# What it costs to audit a report beside the search that wrote it, in one run: the reports of the gallery, a switch and a counter
# that stops at four, the first 5,000 designs of a register; a report with a block that ends with `rows`, and one with the greatest
# effort; and a report of 16 MB of lines that aren't due, which is refused at its first line. The figures are millions of instructions,
# as valgrind counts them, and the ratio of the two. Give the program, or the built one is taken.
here=$(cd "$(dirname "$0")" && pwd) || exit 1
program=${1:-$here/../crates/kat_program/out/kat_program}
work=$(mktemp -d) || exit 1
trap 'rm -rf "$work"' EXIT
examples=$here/../examples

instructions() { valgrind --tool=callgrind --callgrind-out-file="$work/calls" "$@" 2>&1 >"$work/out" | sed -n 's/.*Collected : //p'; }

# compares the search for a type, $2, with the audit of its report; the options come after them
compare() {
    name=$1 type=$2
    shift 2
    search=$(instructions "$program" synth "$type" "$@")
    mv "$work/out" "$work/report"
    audit=$(instructions "$program" audit "$type" "$work/report" "$@")
    [ "$(cat "$work/out")" = confirmed ] || { echo "$name: the report isn't confirmed" >&2; exit 1; }
    awk "BEGIN { printf \"%s (%d lines): synth %.1f, audit %.1f, ratio %.2f\\n\", \"$name\", $(wc -l <"$work/report"), $search / 1e6, $audit / 1e6, $audit / $search }"
}

while read -r name status options; do
    case $status in 4 | 5 | 6) ;; *) continue ;; esac
    # shellcheck disable=SC2086
    compare "$name" "$examples/gallery/$name/$name.type" $options
done <"$examples/gallery/types"
compare toggle "$examples/types/toggle.type" --size 3
printf 'type capped\nstate n: nat = 0\nop touch() rank 0: n := min(n + 1, 4)\nquery get(): nat = n\n' >"$work/capped"
compare capped "$work/capped" --size 3
compare register "$examples/gallery/register/register.type" --size 9 --kinds cell --designs 5000

compare tangle "$examples/reports/tangle.type" --size 1
grep -q '^rows ' "$work/report" || { echo "tangle: no block ends with \`rows\`" >&2; exit 1; }
compare "capped, the greatest effort" "$work/capped" --size 3 --effort 10000

yes 'design 1 differs 1 [[],[0]]' | head -c 16777216 >"$work/report"
audit=$(instructions "$program" audit "$work/capped" "$work/report" --size 3)
awk "BEGIN { printf \"16 MB of lines that aren't due: %.1f\\n\", $audit / 1e6 }"
