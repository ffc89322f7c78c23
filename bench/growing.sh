#!/bin/sh
# What a table with many keys costs, kept in several ways (bench/growing.rs says which), at 100, 200, 10,000 and 1,000,000 keys: nanoseconds
# of the processor for a call, of single runs. It needs cargo and Debian's librust-crdts-dev, 2 GB of memory, and some minutes. With `count`
# as the only word it counts instructions instead, by valgrind, at 100, 200 and 10,000 keys.
here=$(cd "$(dirname "$0")" && pwd) || exit 1
work=$(mktemp -d) || exit 1
trap 'rm -rf "$work"' EXIT
mkdir "$work/.cargo"
cat >"$work/Cargo.toml" <<'CARGO'
[package]
name = "growing"
version = "0.0.0"
edition = "2021"
[[bin]]
name = "growing"
path = "main.rs"
[dependencies]
crdts = { version = "7", default-features = false, features = ["num"] }
CARGO
printf '[source.crates-io]\nreplace-with = "debian"\n[source.debian]\ndirectory = "/usr/share/cargo/registry"\n' >"$work/.cargo/config.toml"
cp "$here/growing.rs" "$work/main.rs"
(cd "$work" && cargo build --offline --quiet --release) || exit 1
growing=$work/target/release/growing
[ "${1-}" = count ] || exec "$growing" 100 200 10000 1000000

# the instructions of a call: of twice as many calls, less those of so many
count() { valgrind --tool=callgrind --callgrind-out-file=/dev/null "$@" 2>&1 | sed -n 's/.*Collected : //p'; }
for keys in 100 200 10000; do
    calls=$((keys / 10)) && [ $calls -le 400 ] || calls=400
    for what in read step new deliver deliver_new; do
        for way in list searched tree blocks shared sums_list sums_searched sums_tree sums_blocks sums_shared; do
            case $way-$what in sums*-read | sums*-step | sums*-new) continue ;; esac
            once=$(count "$growing" $way $what $keys $calls)
            twice=$(count "$growing" $way $what $keys $((2 * calls)))
            echo "$what|$keys|$way|$(((twice - once) / calls)) instructions"
        done
    done
done
