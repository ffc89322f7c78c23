#!/bin/sh
# How many processor seconds one is here of the machine on which the gate's bound was set (docs/proving/cost.md): eleven low crates as
# they were then are proved from nothing, JOBS at once, and what they take is compared with what they took there. It needs rt,
# python3, and a clone with its history; it takes some ten minutes on four processors.
#
#     bench/gate.sh [JOBS]
here=$(cd "$(dirname "$0")" && pwd) || exit 1
jobs=${1:-$(nproc)}
commit=f4478a5d
crates="kat_io kat_num kat_lattice kat_lex kat_expr kat_linear kat_clause kat_form kat_shape kat_fm kat_refute"
# processor seconds of these, in their order: 50 44 224 48 46 51 85 98 76 200 63
there=985
work=$(mktemp -d) || exit 1
trap 'rm -rf "$work"' EXIT
git clone -q "$here/.." "$work/repo" && cd "$work/repo" && git checkout -q "$commit" || exit 1
rm -rf crates/*/must-fail
# a text that no other run has: what was proved once is kept by checksums, and would cost nothing
for name in $crates; do printf '\n// %s\n' "$(date +%s%N)" >> "crates/$name/src/lib.rt"; done
RT_JOBS=$jobs python3 - "$there" $crates <<'PYTHON'
import resource, subprocess, sys, time
there, crates = float(sys.argv[1]), sys.argv[2:]
began = time.time()
run = subprocess.run(["rt", "ci", *crates], capture_output=True, text=True)
missing = [name for name in crates if f"rt: {name} proved" not in run.stdout + run.stderr]
used = resource.getrusage(resource.RUSAGE_CHILDREN)
seconds = used.ru_utime + used.ru_stime
if missing:
    print((run.stdout + run.stderr)[-2000:])
    sys.exit(f"not proved: {' '.join(missing)}")
print(f"{len(crates)} crates: {seconds:.0f} processor seconds here, {there:.0f} there, ratio {seconds / there:.2f}; {(time.time() - began) / 60:.0f} minutes by the clock")
PYTHON
