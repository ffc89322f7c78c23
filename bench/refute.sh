#!/bin/sh
# The checker of lines against a plain Rust unit propagation over the same clauses: microseconds of a run, the best of three,
# for chains of clauses, for a literal that a line repeats, and for long clauses; lines of linear arithmetic alone.
here=$(cd "$(dirname "$0")" && pwd)
program="$here/../crates/kat_bench/out/kat_bench"
[ -x "$program" ] || (cd "$here/../crates/kat_bench" && rt run -- lines chain 200 100) >/dev/null || exit 1
plain=$(mktemp -d)
trap 'rm -rf "$plain"' EXIT
rustc -O -o "$plain/plain" "$here/refute_yardstick.rs" || exit 1
best() {
    for _ in 1 2 3; do
        start=$(date +%s%N)
        "$@" >/dev/null
        end=$(date +%s%N)
        echo $(((end - start) / 1000))
    done | sort -n | head -1
}
for work in "chain 200 100" "chain 200 1000" "chain 200 10000" "chain 2000 100" "chain 2000 1000" "chain 2000 10000" \
    "repeats 1000 1000" "repeats 60000 1000" "repeats 60000 10000" "long 100 100" "long 1000 100" "long 10000 100"; do
    [ "$("$program" lines $work)" = "$("$plain/plain" $work)" ] || echo "the answers differ"
    echo "$work: proved $(best "$program" lines $work) us, plain $(best "$plain/plain" $work) us"
done
for work in "linear 10 1000" "linear 10 10000" "linear 1000 1000"; do
    echo "$work: proved $(best "$program" lines $work) us"
done
