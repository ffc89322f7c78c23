#!/bin/sh
# The price of a call of libkatara: operations, questions and merges of a counter, and of a set of 200 names in which the later call
# wins, by texts and by numbers, beside a plain implementation in C (bench/embed.c), and beside rust-crdt's types (bench/embed.rs) where
# Debian's librust-crdts-dev and cargo are there. 100,000 calls of each, 1,000 merges of the set; times of the processor, of single runs.
# It needs gcc, and embed/build, which it calls.
here=$(cd "$(dirname "$0")" && pwd) || exit 1
[ -n "${BUILT-}" ] || "$here/../embed/build" --no-web || exit 1
out=${OUT:-$here/../embed/out}
gcc -std=gnu11 -O2 -Wall -Wextra -Wno-format-overflow "$here/embed.c" "$out/libkatara.a" -o "$out/bench" || exit 1
registry=/usr/share/cargo/registry
if command -v cargo >/dev/null && [ -n "$(find $registry -maxdepth 1 -name 'crdts-*' 2>/dev/null)" ]; then
    mkdir -p "$out/yardstick/.cargo"
    cat >"$out/yardstick/Cargo.toml" <<'CARGO'
[package]
name = "yardstick"
version = "0.0.0"
edition = "2021"
[[bin]]
name = "yardstick"
path = "main.rs"
[dependencies]
crdts = { version = "7", default-features = false, features = ["num"] }
CARGO
    printf '[source.crates-io]\nreplace-with = "debian"\n[source.debian]\ndirectory = "%s"\n' $registry >"$out/yardstick/.cargo/config.toml"
    cp "$here/embed.rs" "$out/yardstick/main.rs"
    (cd "$out/yardstick" && cargo build --offline --quiet --release) && yardstick=$out/yardstick/target/release/yardstick
fi
gallery=$here/../examples/gallery
{
    "$out/bench" "$gallery/counter/counter.type" "$gallery/counter/counter.design" "$gallery/element_set/element_set.type" "$gallery/element_set/element_set.design"
    [ -z "${yardstick-}" ] || "$yardstick"
} | awk '
    { time[$1, $2] = $3; if (!seen[$1]++) rows[++count] = $1; if (!known[$2]++) ways[++many] = $2 }
    END {
        for (i = 1; i <= count; i++) {
            printf "%s:", rows[i]
            for (j = 1; j <= many; j++) if ((rows[i], ways[j]) in time) printf " %s %s", ways[j], time[rows[i], ways[j]]
            printf " nanoseconds"
            crdt = time[rows[i], "rust-crdt"]
            if (crdt) for (j = 1; j <= many; j++) if ((rows[i], ways[j]) in time && ways[j] !~ /^(plain|rust-crdt|text_)/) printf "; %s %.1f times rust-crdt", ways[j], time[rows[i], ways[j]] / crdt
            print ""
        }
    }'
