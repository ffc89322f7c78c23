#!/usr/bin/env python3
"""Whether two states of the program answer alike: `list` and `synth` of all types in folders, with several sizes and kinds.

    bench/earlier.py OLD NEW [--jobs N] [--calls NAME] [--seconds N] FOLDER..

OLD, NEW: the programs; FOLDER: each file below it whose name ends in `.type` is taken, except those in a folder `refused`.
`--calls` takes `few` (three lists and two searches of a type) or `many` (the default). Standard output, standard error and status
are compared byte for byte, each call in a folder of its own with the file's name alone. A call that takes longer than N seconds
(120) with one of the programs isn't judged, and is counted. It prints how many calls were alike, by command and status, those that
differ, and whether what differs tells of an undecided design. Its status is 0 only if nothing differs.
"""
import collections
import concurrent.futures
import os
import shutil
import subprocess
import sys
import tempfile

FEW = [
    "list --size 3",
    "list --size 5 --designs 40",
    "list --size 7 --designs 30 --kinds cell,tally",
    "synth --size 3 --designs 40",
    "synth --size 5 --designs 25 --effort 10",
]
MANY = [
    "list --size 1",
    "list --size 3",
    "list --size 4 --designs 400",
    "list --size 5 --designs 200 --kinds cell",
    "list --size 6 --designs 200 --kinds table,set",
    "list --size 8 --designs 100 --kinds set,tally,tallies",
    "list --size 24 --designs 60",
    "list --size 3 --kinds tallies",
    "synth --size 2",
    "synth --size 4 --designs 150",
    "synth --size 5 --designs 60 --effort 1",
    "synth --size 6 --designs 100 --kinds cell",
    "synth --size 7 --designs 60 --kinds set,tally,tallies",
    "synth --size 9 --designs 50 --kinds table --effort 100",
]


def answer(program, words, folder, seconds):
    """What a program wrote and how it ended, or None if it took too long."""
    try:
        ended = subprocess.run([program] + words, cwd=folder, capture_output=True, timeout=seconds, env={}, check=False)
    except subprocess.TimeoutExpired:
        return None
    return ended.stdout, ended.stderr, ended.returncode


def compare(job):
    """One call with both programs: how it ended, and what differs."""
    old, new, path, call, seconds = job
    command, *options = call.split()
    with tempfile.TemporaryDirectory() as folder:
        name = os.path.basename(path)
        shutil.copy(path, os.path.join(folder, name))
        words = [command, name] + options
        before, after = (answer(program, words, folder, seconds) for program in (old, new))
    if before is None or after is None:
        return command, "too long", path, call, "one" if before or after else "both"
    if before == after:
        return command, "alike", path, call, after[2]
    tells = b" undecided " in before[0] + after[0] or (command == "synth" and before[2] == after[2] == 0)
    said = "statuses %d and %d, %d and %d bytes; %s" % (before[2], after[2], len(before[0]), len(after[0]), "a file, or tells of an undecided design" if tells else "no undecided design")
    return command, "differ", path, call, said


def types_below(folders):
    """The type files below the folders, in order."""
    found = []
    for folder in folders:
        for top, _, names in sorted(os.walk(folder)):
            if os.path.basename(top) != "refused":
                found += [os.path.join(top, name) for name in sorted(names) if name.endswith(".type")]
    return found


def main(words):
    given = {"jobs": "1", "calls": "many", "seconds": "120"}
    rest = []
    while words:
        word = words.pop(0)
        if word.startswith("--") and word[2:] in given and words:
            given[word[2:]] = words.pop(0)
        else:
            rest.append(word)
    if len(rest) < 3 or given["calls"] not in ("few", "many"):
        sys.exit(__doc__)
    old, new, *folders = [os.path.abspath(word) for word in rest]
    paths = types_below(folders)
    calls = FEW if given["calls"] == "few" else MANY
    jobs = [(old, new, path, call, float(given["seconds"])) for path in paths for call in calls]
    counts = collections.Counter()
    differ = 0
    with concurrent.futures.ThreadPoolExecutor(int(given["jobs"])) as pool:
        for command, how, path, call, told in pool.map(compare, jobs):
            counts[command, how, told if how != "differ" else ""] += 1
            if how != "alike":
                print("%s: %s, %s: %s" % (how, os.path.relpath(path), call, told), flush=True)
            differ += how == "differ"
    print("%d types, %d calls" % (len(paths), len(jobs)))
    for (command, how, told), count in sorted(counts.items(), key=str):
        print("%-6s %-8s %6d%s" % (command, how, count, "" if told == "" else ", status %s" % told if how == "alike" else ", %s" % told))
    return 1 if differ else 0


if __name__ == "__main__":
    sys.exit(main(sys.argv[1:]))
