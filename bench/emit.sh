#!/bin/sh
# The price of a call of emitted Rust: operations, questions and merges of a counter, and of a set of 200 names (bench/emit.rs), beside
# rust-crdt's types (bench/embed.rs) where Debian's librust-crdts-dev is there: both are built and run in one go. 100,000 calls of each, 1,000
# merges of the set; times of the processor, the least of ROUNDS runs (9). PROGRAM writes the code (../katara if there is none).
here=$(cd "$(dirname "$0")" && pwd) || exit 1
program=${1:-$here/../katara}
out=$(mktemp -d) || exit 1
trap 'rm -rf "$out"' EXIT
gallery=$here/../examples/gallery
mkdir -p "$out/.cargo" "$out/src/bin/emitted"
cp "$here/emit.rs" "$out/src/bin/emitted/main.rs"
for name in counter element_set; do
    "$program" emit "$gallery/$name/$name.type" "$gallery/$name/$name.design" --language rust >"$out/src/bin/emitted/$name.rs" || exit 1
done
registry=/usr/share/cargo/registry
crdts=
if [ -n "$(find $registry -maxdepth 1 -name 'crdts-*' 2>/dev/null)" ]; then
    crdts='crdts = { version = "7", default-features = false, features = ["num"] }'
    mkdir "$out/src/bin/crdts"
    cp "$here/embed.rs" "$out/src/bin/crdts/main.rs"
    printf '[source.crates-io]\nreplace-with = "debian"\n[source.debian]\ndirectory = "%s"\n' $registry >"$out/.cargo/config.toml"
fi
cat >"$out/Cargo.toml" <<CARGO
[package]
name = "measure"
version = "0.0.0"
edition = "2021"
[dependencies]
$crdts
CARGO
(cd "$out" && cargo build --offline --quiet --release) || exit 1
for _ in $(seq "${ROUNDS:-9}"); do
    "$out/target/release/emitted"
    [ -z "$crdts" ] || "$out/target/release/crdts"
done | awk '
    {
        if (!($1 in seen)) rows[++count] = $1
        seen[$1] = 1
        if (!(($1, $2) in time) || $3 < time[$1, $2]) time[$1, $2] = $3
    }
    END {
        for (i = 1; i <= count; i++) {
            printf "%s: emitted %s", rows[i], time[rows[i], "emitted"]
            if ((rows[i], "rust-crdt") in time) printf " rust-crdt %s nanoseconds; %.2f times rust-crdt", time[rows[i], "rust-crdt"], time[rows[i], "emitted"] / time[rows[i], "rust-crdt"]
            else printf " nanoseconds"
            print ""
        }
    }'
