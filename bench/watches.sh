#!/bin/sh
# Unit propagation by watched literals against a plain Rust program with two watched literals a clause, which proves nothing: 20,000
# drawn clauses of three literals over 5,000 variables, propagated from 100 drawn literals, and all taken back, 1,000 times. It
# prints the instructions of both, and their ratio, with what it takes to draw and add the clauses left out. It needs rt, rustc and
# valgrind.
here=$(cd "$(dirname "$0")" && pwd)
program="$here/../crates/kat_bench/out/kat_bench"
[ -x "$program" ] || (cd "$here/../crates/kat_bench" && rt run -- watches 1) >/dev/null || exit 1
plain=$(mktemp -d)
trap 'rm -rf "$plain"' EXIT
rustc -O -o "$plain/plain" "$here/watches_yardstick.rs" || exit 1
[ "$("$program" watches 1000)" = "$("$plain/plain" 1000)" ] || echo "the answers differ"
instructions() {
    valgrind --tool=callgrind --callgrind-out-file=/dev/null "$@" 2>&1 >/dev/null | awk '/Collected/ { print $NF }'
}
ours=$(($(instructions "$program" watches 1000) - $(instructions "$program" watches 0)))
theirs=$(($(instructions "$plain/plain" 1000) - $(instructions "$plain/plain" 0)))
awk "BEGIN { printf \"proved %.1f million, plain %.1f million, ratio %.2f\\n\", $ours / 1000000, $theirs / 1000000, $ours / $theirs }"
