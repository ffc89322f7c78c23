"""Calls that the Python binding must refuse, or take as they are meant, whatever the caller's objects do meanwhile.

    misuse.py LIBRARY TYPE DESIGN VERSION
"""
import copy
import gc
import pickle
import sys

import katara
from katara import Library, Replica, Type


class Told(list):
    """A list that tells its length once, and then another one."""

    looks = 0

    def __len__(self):
        self.looks += 1
        return list.__len__(self) if self.looks == 1 else 40


def refused(call, errors):
    try:
        call()
    except errors:
        return
    sys.exit(f"a call that must be refused was done, line {call.__code__.co_firstlineno}")


def must(so, what):
    if not so:
        sys.exit(what)


library = Library(sys.argv[1])
texts = [open(path).read() for path in sys.argv[2:4]]
one = Replica(library, *texts, 1)
one.do("add", ["milk", 2])
one.do("add", ("eggs", 3))
must(one.ask("count", ["milk"]) == 2 and one.ask("count", iter(["eggs"])) == 3, "a call takes what lists")
# a list that changes while it is looked at passes what it had at first
one.do("add", Told(["bread", 4]))
must(one.ask("count", ["bread"]) == 4, "a list is looked at once")
# a single name isn't a list of names of one letter
for single in ("milk", b"milk", bytearray(b"m")):
    refused(lambda: one.ask("count", single), TypeError)
for none in (2, None, 1.5):
    refused(lambda: one.ask("count", none), TypeError)
    refused(lambda: one.ask("count", [none] if none != 2 else [[]]), TypeError)
# what people typed is one argument, and no call of its own
refused(lambda: one.do("add", ['milk" 1000000 #', 1]), katara.KataraError)
refused(lambda: one.do('add "milk" 2'), katara.KataraError)
must(one.ask("count", ["milk"]) == 2, "a refused call changed something")
# each code has a class of its own
classes = katara._ERRORS
must(set(classes) == set(range(1, 16)) - {katara.ROOM} and len(set(classes.values())) == 14, "classes of errors")
for code, call in (
    (katara.BAD_TYPE, lambda: Replica(library, "", texts[1], 1)),
    (katara.BAD_DESIGN, lambda: Replica(library, texts[0], "", 1)),
    (katara.LIMIT, lambda: Replica(library, *texts, 33)),
    (katara.NO_CALL, lambda: one.do_text("x")),
    (katara.BAD_STATE, lambda: one.merge(b"")),
    (katara.BAD_SCRIPT, lambda: library.run(*texts, "")),
    (katara.BAD_SHARE, lambda: one.difference(b"[]")),
    (katara.GAP, lambda: Replica(library, *texts, 2).merge_difference(one.difference(one.share()))),
):
    refused(call, classes[code])
must(issubclass(katara.OutOfMemoryError, MemoryError), "out of memory is Python's own error too")
# two objects of one handle
for copied in (copy.copy, copy.deepcopy, pickle.dumps):
    refused(lambda: copied(one), TypeError)
# memory goes back once: with `free`, at the end of a block, with the object
cart = Type(library, *texts)
with cart.replica(2) as two:
    must(two.merge(one) and not two.merge(one) and not two.merge(two), "a merge says whether it changed anything")
    must(two.keys("count") == ["bread", "eggs", "milk"], "the keys are names")
    refused(two.share, katara.NoMarksError)
refused(lambda: cart.replica(33), katara.LimitError)
with cart:
    pass
refused(lambda: cart.replica(3), katara.FreedError)
must(library.version() == sys.argv[4], "the version is that of the header")
refused(lambda: two.state(), katara.KataraError)
two.free()
three = Replica(library, *texts, 3)
must(three._freed.alive, "a replica has a finalizer")
finalizer, circle = three._freed, [three]
three.circle = circle
del three, circle
gc.collect()
must(not finalizer.alive, "what is no longer reached is freed")
one.free()
refused(lambda: one.ask("count", ["milk"]), katara.KataraError)
