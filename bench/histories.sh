#!/bin/sh
# Time of the search for a history on which a right design differs, over all histories of a register, a cart and a set whose
# elements come and go, beside the plain program of histories.rs: microseconds of one search (the fastest of five runs of twenty
# searches), and the ratio. Both must answer the same. Instructions of one search are those that valgrind counts, if it is found.
# Then time and peak memory over a type with as many asks and histories as there can be, of which most find no room to be kept: of
# `synth` at its first design, which differs early, and of `prove` with a design that agrees on all of them. It needs rt, rustc and python3.
set -e
here=$(cd "$(dirname "$0")" && pwd)
work=$(mktemp -d)
trap 'rm -rf "$work"' EXIT
rustc --edition 2021 -O -o "$work/plain" "$here/histories.rs"
program=${1:-$here/../crates/kat_bench/out/kat_bench}
[ -n "$1" ] || (cd "$here/../crates/kat_bench" && rt run >"$work/build.log" 2>&1) || { cat "$work/build.log"; exit 1; }

# microseconds of one search
best() {
    for _ in 1 2 3 4 5; do
        start=$(date +%s%N)
        "$@" 20 >/dev/null
        end=$(date +%s%N)
        echo $(((end - start) / 20000))
    done | sort -n | head -1
}
# thousands of instructions of one search: those of eleven without those of one, by ten
instructions() {
    for rounds in 1 11; do
        valgrind --tool=callgrind --callgrind-out-file=/dev/null "$@" $rounds 2>&1 >/dev/null | sed -n 's/.*Collected : //p'
    done | xargs | awk '{ printf "%.0f", ($2 - $1) / 10000 }'
}

printf '%-12s %10s %10s %6s\n' type proved plain ratio
for name in register cart element_set; do
    is=$("$program" differences $name 1)
    was=$("$work/plain" $name 1)
    [ "$is" = "$was" ] || echo "the answers differ: $is, $was"
    a=$(best "$program" differences $name)
    b=$(best "$work/plain" $name)
    printf '%-12s %7d us %7d us %6s  %s\n' $name "$a" "$b" "$(awk "BEGIN { printf \"%.2f\", $a / $b }")" "$is"
    if command -v valgrind >/dev/null; then
        a=$(instructions "$program" differences $name)
        b=$(instructions "$work/plain" $name)
        printf '%12s %s and %s thousand instructions, ratio %s\n' "" "$a" "$b" "$(awk "BEGIN { printf \"%.2f\", $a / $b }")"
    fi
done

# one operation of four numbers, and twelve queries of four numbers each
{
    echo "type worst"
    echo "state s: int = 0"
    echo "op put(a: int, b: int, c: int, d: int) rank 0: s := max(s, a)"
    for query in 1 2 3 4 5 6 7 8 9 10 11 12; do
        echo "query q$query(a: int, b: int, c: int, d: int): int = s"
    done
} > "$work/worst.type"
katara="$here/../crates/kat_program/out/kat_program"
[ -x "$katara" ] || (cd "$here/../crates/kat_program" && rt run >/dev/null 2>&1) || true
rustc --edition 2021 -O -o "$work/peak" "$here/peak.rs"
"$work/peak" "$work/out" "$katara" synth "$work/worst.type" --size 13 --designs 1 | awk '{ printf "synth at the first design of a type with 3,072 asks: %.1f s, %d kB, status %d\n", $1, $2, $3 }'
# a right design of it; with one leaf for each walk no proof is found, so all histories are gone through
python3 - > "$work/worst.design" <<'PYTHON'
import json
sorts = ["int"] * 4
queries = [[f"q{it}", sorts, "int"] for it in range(1, 13)]
print(json.dumps(["katara", 1, [[["put", sorts]], queries], [[["cell", "max", [0], [["p0"]]]], [["leaf", 0, 0]] * 12], [], [], []], separators=(",", ":")))
PYTHON
katara="$here/../crates/kat_find_program/out/kat_find_program"
[ -x "$katara" ] || (cd "$here/../crates/kat_find_program" && rt run >/dev/null 2>&1) || true
[ -x "$katara" ] || { echo "prove: there is no program"; exit 1; }
"$work/peak" "$work/out" "$katara" prove "$work/worst.type" "$work/worst.design" --effort 1 | awk '{ printf "prove with a design that agrees on all histories: %.1f s, %d kB, status %d\n", $1, $2, $3 }'
