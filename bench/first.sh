#!/bin/sh
# From nothing to a first answer: `git clone` of this repository by git's own protocol into an empty folder, and README's first command there,
# with nothing of the caller's environment and only git and Node. Milliseconds by the clock, run by run.
#     bench/first.sh [RUNS]
cd "$(dirname "$0")/.." || exit 1
here=$PWD
folder=$(mktemp -d) || exit 1
trap 'rm -rf "$folder"' EXIT
now() { date +%s%3N; }
alone() { env -i PATH=/usr/bin HOME="$folder" "$@"; }
command -v node >/dev/null && command -v git >/dev/null || { echo "bench/first.sh: there is no node or no git, so nothing is measured"; exit 0; }
echo "$(node --version), $(git --version), load $(cut -d ' ' -f 1 /proc/loadavg)"
echo "clone answer both"
for run in $(seq "${1:-5}"); do
    start=$(now)
    alone git clone -q "file://$here" "$folder/$run" || exit 1
    cloned=$(now)
    (cd "$folder/$run" && alone node play/katara.mjs model examples/types/cart.type examples/types/cart.script) >"$folder/answer" || exit 1
    answered=$(now)
    cmp "$folder/answer" examples/types/cart.output || exit 1
    rm -rf "${folder:?}/$run"
    echo "$((cloned - start)) $((answered - cloned)) $((answered - start))"
done
