#!/bin/sh
# Times joins of `GrowSet`, of `GrowMap` of `Max` and of `Tally` beside a plain Rust program that merges two sorted vectors, at 10,
# 1,000 and 100,000 entries, in one run: for each the microseconds of both for about 4,000,000 entries joined (the
# fastest of five rounds), their ratio, and whether both found as many entries. It needs rt and rustc.
set -e
here=$(cd "$(dirname "$0")" && pwd)
work=$(mktemp -d)
trap 'rm -rf "$work"' EXIT
rustc -O -C target-cpu=x86-64-v2 -o "$work/plain" "$here/lattice_yardstick.rs"
(cd "$here/../crates/kat_bench" && rt run > "$work/build.log" 2>&1) || { cat "$work/build.log"; exit 1; }
proved="$here/../crates/kat_bench/out/kat_bench"

printf '%-6s %8s %10s %10s %6s  %s\n' type entries plain proved ratio outcome
for kind in set map tally; do
    for n in 10 1000 100000; do
        set -- $("$work/plain" "$kind" "$n")
        a=$1; shift; was="$*"
        set -- $("$proved" joins "$kind" "$n")
        b=$1; shift; is="$*"
        same=$([ "$was" = "$is" ] && echo "$is" || echo "DIFFER: $was, $is")
        ratio=$(awk "BEGIN { printf \"%.2f\", $b / ($a > 0 ? $a : 1) }")
        printf '%-6s %8s %10s %10s %6s  %s\n' "$kind" "$n" "$a" "$b" "$ratio" "$same"
    done
done
