#!/bin/sh
# Checks design files that are made of a real one by repeating the lines of its proof (bench/proofs.py), and times: `check` without
# hints and with them, `migrate`, `converge` on a script of one line, which reads the file and doesn't look at its proof, and `check`
# where one line names one clause until the file is full. Milliseconds, the best of three, and millions of instructions where
# valgrind is there.
#
#     bench/proofs.sh NAME.type NAME.design BYTES ..
here=$(cd "$(dirname "$0")" && pwd)
[ $# -ge 3 ] || { echo "usage: proofs.sh NAME.type NAME.design BYTES .." >&2; exit 1; }
type=$1; design=$2; shift 2
program="$here/../crates/kat_program/out/kat_program"
[ -x "$program" ] || (cd "$here/../crates/kat_program" && rt run) >/dev/null || exit 1
work=$(mktemp -d) || exit 1
trap 'rm -rf "$work"' EXIT
printf 'replicas 1\n' > "$work/script"
"$program" migrate "$type" "$design" > "$work/hinted" || exit 1
best() {
    for _ in 1 2 3; do
        start=$(date +%s%N)
        "$@" > "$work/out" 2>&1
        end=$(date +%s%N)
        echo $(((end - start) / 1000000))
    done | sort -n | head -1
}
instructions() {
    command -v valgrind > /dev/null || { echo 0; return; }
    valgrind --tool=callgrind --callgrind-out-file="$work/calls" "$@" 2>&1 >/dev/null | sed -n 's/.*Collected : //p' | awk '{ print int($1 / 1000000) }'
}
measure() {
    what=$1; shift
    echo "$what: $(best "$@") ms, $(instructions "$@") million instructions ($(head -c 60 "$work/out" | head -n 1))"
}
for size in "$@"; do
    for kind in first second named; do
        python3 "$here/proofs.py" "$kind" "$size" "$work/hinted" > "$work/$kind"
    done
    echo "-- $(wc -c < "$work/first") bytes without hints, $(wc -c < "$work/second") with them, $(wc -c < "$work/named") with one clause named again and again"
    measure "check without hints" "$program" check "$type" "$work/first"
    measure "converge of that, without the proof" "$program" converge "$work/first" "$work/script"
    measure "migrate" "$program" migrate "$type" "$work/first"
    measure "check with hints" "$program" check "$type" "$work/second"
    measure "converge, without the proof" "$program" converge "$work/second" "$work/script"
    measure "check of one clause named again and again" "$program" check "$type" "$work/named"
    measure "converge of that" "$program" converge "$work/named" "$work/script"
done
