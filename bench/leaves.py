#!/usr/bin/env python3
"""Time of `prove` for one cell of 6, 8, 10 and 12 leaves: a rank of two, and a value for each of so many fields, all written at once.

    bench/leaves.py [PROGRAM] [LEAVES ..]     PROGRAM: of ../crates/kat_find_program/out/kat_find_program, or another one
"""
import json, os, resource, subprocess, sys, tempfile

HERE = os.path.dirname(os.path.abspath(__file__))
words = sys.argv[1:]
program = words.pop(0) if words and not words[0].isdigit() else f"{HERE}/../crates/kat_find_program/out/kat_find_program"

def texts(leaves):
    """The type and the design."""
    fields = range(leaves - 2)
    ty = "type wide\n" + "".join(f"state f{k}: int = 0\n" for k in fields)
    ty += "op put(x: int) rank time, replica: " + "; ".join(f"f{k} := x" for k in fields) + "\n"
    ty += "".join(f"query get{k}(): int = f{k}\n" for k in fields)
    shape = "max"
    for _ in range(leaves - 1):
        shape = ["lex", "max", shape]
    cell = ["cell", shape, [0] * leaves, [["time", "replica", *["p0" for _ in fields]]]]
    signature = [[["put", ["int"]]], [[f"get{k}", [], "int"] for k in fields]]
    return ty, json.dumps(["katara", 1, signature, [[cell], [["leaf", 0, 2 + k] for k in fields]], [], [], []])

for leaves in [int(word) for word in words] or [6, 8, 10, 12]:
    with tempfile.TemporaryDirectory() as work:
        for name, text in zip(("type", "design"), texts(leaves)):
            with open(f"{work}/{name}", "w") as it:
                it.write(text)
        before = resource.getrusage(resource.RUSAGE_CHILDREN)
        done = subprocess.run([program, "prove", f"{work}/type", f"{work}/design"], stdout=subprocess.DEVNULL)
        used = resource.getrusage(resource.RUSAGE_CHILDREN)
        seconds = used.ru_utime + used.ru_stime - before.ru_utime - before.ru_stime
        print(f"{leaves} leaves: {seconds:.2f} seconds, status {done.returncode}", flush=True)
