#!/usr/bin/env python3
"""proofs.py KIND BYTES DESIGN: a large design file, made of a real one of version 2.

- `second`: its lines with hints, each list repeated before its last line until the file has about so many bytes
- `first`: the same without hints, the same number of times, so that it is shorter
- `named`: one line names one clause until the file has so many bytes: the first hint that gives a literal, again and again

The hints stay right: the clauses that they name keep their numbers, since the repeated lines come after them."""
import json
import sys


def text(file):
    return json.dumps(file, separators=(",", ":")) + "\n"


def repeated(file, times):
    return file[:5] + [[lines[:-1] * times + lines[-1:] for lines in file[5]]] + [[]]


def plain(file):
    return ["katara", 1] + file[2:5] + [[[line if line[0] == "l" else line[:2] for line in lines] for lines in file[5]]] + [[]]


def times_for(file, size):
    once, twice = len(text(repeated(file, 1))), len(text(repeated(file, 2)))
    return max(1, (size - once) // max(1, twice - once) + 1)


def named(file, size):
    line = next(line for lines in file[5] for line in lines if line[0] == "r" and len(line[2]) > 1)
    line[2] = line[2][:1] * ((size - len(text(file))) // (len(str(line[2][0])) + 1)) + line[2]
    return file


kind, size = sys.argv[1], int(sys.argv[2])
with open(sys.argv[3]) as design:
    file = json.load(design)
if kind == "named":
    sys.stdout.write(text(named(file, size)))
else:
    many = repeated(file, times_for(file, size))
    sys.stdout.write(text(plain(many) if kind == "first" else many))
