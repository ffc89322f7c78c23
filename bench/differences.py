#!/usr/bin/env python3
"""differences.py LIBRARY [SIZE..]: what a packet of one operation costs beside the whole state, by the Python binding over a shared library.

For a cart and an element set with SIZE keys (1000, 10000 and 100000) of one replica: bytes, milliseconds of processor time (the least of some
calls), and by how much memory in use grows during the call, at most. What a call by text reads and writes is in its figures. Another
replica has all but the last operation; `known` is the share that it has.
"""
import pathlib
import sys
import time

root = pathlib.Path(__file__).resolve().parent.parent
sys.path.insert(0, str(root / "embed/python"))
import katara  # noqa: E402

library = katara.Library(sys.argv[1])
SIZES = [int(it) for it in sys.argv[2:]] or [1000, 10_000, 100_000]
# the type, an operation at a key, one at another key of what is there, and a query
TYPES = (("cart", lambda key: ("add", [key, 1]), "count"), ("element_set", lambda key: ("insert", [key]), "contains"))


def of_status(word):
    return int(pathlib.Path("/proc/self/status").read_text().partition(f"{word}:")[2].split()[0])


def peak(call):
    """By how many kB memory grows during a call, beyond what was in use before."""
    pathlib.Path("/proc/self/clear_refs").write_text("5")
    before = of_status("VmRSS")
    call()
    return max(0, of_status("VmHWM") - before)


def least(call, before=lambda: None, seconds=0.2):
    """The least processor time of some calls, in milliseconds; what `before` does isn't in it."""
    best, ended = None, time.process_time() + seconds
    while best is None or time.process_time() < ended:
        given = before()
        began = time.process_time()
        call(given) if given is not None else call()
        spent = 1000 * (time.process_time() - began)
        best = spent if best is None else min(best, spent)
    return best


def told(what, milliseconds, kilobytes="", size=""):
    print(f"| {what} | {size and f'{size:,}'} | {milliseconds:.3f} | {kilobytes and f'{kilobytes:,}'} |", flush=True)


for name, act, query in TYPES:
    kind = library.type(*((root / f"examples/gallery/{name}/{name}.{it}").read_text() for it in ("type", "design")))
    for size in SIZES:
        here, there = kind.replica(1), kind.replica(2)
        for n in range(size):
            here.do(*act(f"k{n}"))
        there.merge_difference(here.difference())
        known = here.share()
        known_state = here.state()
        operation = act(f"k{size // 2}")
        here.do(*operation)
        packet, state, marks = here.difference(known), here.state(), here.marks()
        body = packet.splitlines()[2]
        print(f"\n{name} with {size:,} keys: a state of {len(state):,} bytes; a packet of one operation {len(packet):,}, of which {len(packet) - len(body) - 1:,} are two lines of marks")
        print("| call | bytes | ms | kB |\n|---|---|---|---|")

        def fresh():
            replica = kind.replica(2)
            replica.restore_share(saved)
            return replica

        saved = there.share()
        told("an operation", least(lambda: here.do(*operation)))
        told("state", least(here.state), peak(here.state), len(state))
        told("difference from a known share", least(lambda: here.difference(known)), peak(lambda: here.difference(known)), len(packet))
        told("difference from nothing", least(here.difference), peak(here.difference), len(here.difference()))
        told("merge_difference of the packet, the first after restore_share", least(lambda it: it.merge_difference(packet), fresh), "", len(packet))
        # further packets of one operation each, at keys that are there, of which each builds on the one before
        there.merge_difference(here.difference(known))
        packets = []
        for n in range(20):
            before = here.share()
            here.do(*act(f"k{n * size // 20}"))
            packets.append(here.difference(before))
        began = time.process_time()
        for it in packets:
            there.merge_difference(it)
        told("of one after another", 1000 * (time.process_time() - began) / len(packets), "", len(packets[0]))
        told("the same again, which changes nothing", least(lambda: there.merge_difference(packet)), peak(lambda: there.merge_difference(packet)), len(packet))
        plain = kind.replica(2)
        plain.merge(known_state)

        def plainly():
            replica = kind.replica(2)
            replica.restore(known_state)
            return replica

        told("merge of the whole state", least(lambda it: it.merge(state), plainly), "", len(state))
        plain.merge(state)
        told("the same again, which changes nothing", least(lambda: plain.merge(state)), peak(lambda: plain.merge(state)), len(state))
        told("merge_from, which changes nothing: a comparison of two states", least(lambda: plain.merge_from(here)))
        told("restore_share", least(lambda: there.restore_share(saved)), "", len(saved))
        told("keys_beyond the known state", least(lambda: here.keys_beyond(query, known_state)), "", len(known_state))
