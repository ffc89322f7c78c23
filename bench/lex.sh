#!/bin/sh
# Times `kat_lex::tokens` beside a plain Rust tokeniser on texts of 16 MB (and of 4 MB, to show that the time is
# linear), in one run: for each text the microseconds of both (the fastest of five rounds), their ratio, the
# greatest memory of both in KB, and whether both found the same. It needs rt, rustc, python3 and /usr/bin/time.
set -e
here=$(cd "$(dirname "$0")" && pwd)
work=$(mktemp -d)
trap 'rm -rf "$work"' EXIT
rustc -O -C target-cpu=x86-64-v2 -o "$work/plain" "$here/lex_yardstick.rs"
(cd "$here/../crates/kat_bench" && rt run > "$work/build.log" 2>&1) || { cat "$work/build.log"; exit 1; }
proved="$here/../crates/kat_bench/out/kat_bench"

python3 - "$work" <<'PY'
import sys
work = sys.argv[1]
size = 16 * 1024 * 1024
line = (b"type register # the last write\nstate value : name = \"none\"\nop set(v: name) rank time, replica : value := v\n"
        b"query get() : name = value\nquery late(n: nat) : bool = n <= 1000000000000 and not (n + 1 < 12)\n")
texts = {
    "type": line,
    "numbers": b"999999999999 1000000000000 0 42 ",
    "zeros": b"0",
    "signs": b"(",
    "newlines": b"\n",
    "comment": b"#",
    "long name": None,
    "long word": b"w",
}
for name, piece in texts.items():
    for mb in (4, 16):
        n = size * mb // 16
        data = b'"' + b"a" * (n - 1) if piece is None else (piece * (n // len(piece) + 1))[:n]
        if name == "type":
            data = data[:data.rfind(b"\n") + 1]
        if name == "numbers":
            data = data[:data.rfind(b" ") + 1]
        open(f"{work}/{name.replace(' ', '_')}.{mb}", "wb").write(data)
PY

printf '%-12s %10s %10s %6s %10s %10s  %s\n' text plain proved ratio 'KB plain' 'KB proved' outcome
for text in "$work"/*.4 "$work"/*.16; do
    plain=$(/usr/bin/time -f %M -o "$work/plain.kb" "$work/plain" "$text")
    ours=$(/usr/bin/time -f %M -o "$work/proved.kb" "$proved" tokens "$text")
    set -- $plain
    a=$1; shift; was="$*"
    set -- $ours
    b=$1; shift; is="$*"
    same=$([ "$was" = "$is" ] && echo "$is" || echo "DIFFER: $was, $is")
    ratio=$(awk "BEGIN { printf \"%.2f\", $b / ($a > 0 ? $a : 1) }")
    printf '%-12s %10s %10s %6s %10s %10s  %s\n' "$(basename "$text")" "$a" "$b" "$ratio" "$(cat "$work/plain.kb")" "$(cat "$work/proved.kb")" "$same"
done
