"""driver.py FILE N M: does what the lines on standard input say with the class of a file that `emit` wrote, which has N operations and M queries."""
import dataclasses
import importlib.util
import json
import sys

sys.dont_write_bytecode = True
spec = importlib.util.spec_from_file_location("emitted", sys.argv[1])
module = importlib.util.module_from_spec(spec)
sys.modules["emitted"] = module
spec.loader.exec_module(module)
operations, queries = map(int, sys.argv[2:])
(kind,) = [it for it in vars(module).values() if isinstance(it, type) and hasattr(it, "merge")]
names = list(vars(kind))
methods = names[names.index("clock") + 1 : names.index("merge")]
given = lambda words: [json.loads(it) for it in words]
word = lambda it: json.dumps(it)


def taken(it, packet, old):
    before, whole, now, late = it.state(), it.clone(), kind.from_state(it.state()), it.clone()
    now.merge(kind.from_state(packet.difference(it).state()))
    late.merge(packet.difference(old))
    changed = it.merge(packet)
    if whole.state() != before or eval(repr(it), vars(module)) != it:
        sys.exit("a copy isn't one")
    whole.merge(packet)
    if not whole == now == late == it:
        sys.exit("a difference isn't enough")
    return word(["changed", *dataclasses.astuple(changed)])


def tried(call):
    """What a call answers, or why it is refused."""
    try:
        return call()
    except ValueError as error:
        return error.problem


def took(it, text):
    before, problem = it.share(), tried(lambda: it.merge_packet(text) and None)
    if problem and it.share() != before:
        sys.exit("a packet that is refused changes something")
    return problem or word(it.share())


def plain(it):
    bare, whole = kind.from_state(it.state()), it.clone()
    whole.merge(bare)
    calls = [bare.share, bare.marks, lambda: bare.packet(it), lambda: bare.merge_packet(it.packet(it)), whole.share]
    return " ".join(map(tried, calls))


for line in sys.stdin.read().splitlines():
    step, *more = line.split(" ")
    if step == "begin":
        replicas = {n: kind(n) for n in range(1, int(more[0]) + 1)}
        shipped, packets = {n: it.clone() for n, it in replicas.items()}, {}
    elif step == "do":
        getattr(replicas[int(more[0])], methods[int(more[1])])(*given(more[2:]))
    elif step == "ask":
        print(word(getattr(replicas[int(more[0])], methods[operations + int(more[1])])(*given(more[2:]))))
    elif step == "ship":
        it = replicas[int(more[0])]
        shipped[int(more[0])] = kind.from_state(it.state())
        packets[more[1]] = it.clone()
    elif step == "deliver":
        print(taken(replicas[int(more[1])], packets[more[0]], shipped[int(more[1])]))
    elif step == "show":
        it = replicas[int(more[0])]
        print(it.state().rstrip("\n"))
        print(word(["keys", *(getattr(it, name)() for name in methods[operations + queries :])]))
    elif step == "shares":
        replicas = {n: kind(n) for n in range(1, int(more[0]) + 1)}
        kept, told = {"0": kind(32)}, []
    elif step == "share":
        print(word(replicas[int(more[0])].share()))
    elif step == "keep":
        kept[more[1]] = kind.from_share(replicas[int(more[0])].share())
    elif step == "packet":
        told.append(replicas[int(more[0])].packet(kept[more[1]]))
        print(word(told[-1]))
    elif step == "take":
        print(took(replicas[int(more[0])], told[int(more[1])]))
    elif step == "spoiled":
        print(took(replicas[int(more[0])], bytes.fromhex(more[1]).decode()))
    elif step == "restart":
        replicas[int(more[0])] = kept[more[1]].clone()
        print(word(replicas[int(more[0])].share()))
    elif step == "reshare":
        print(tried(lambda: word(kind.from_share(bytes.fromhex(more[0]).decode()).share())))
    elif step == "plain":
        print(plain(replicas[int(more[0])]))
    else:
        try:
            print(kind.from_state(bytes.fromhex(more[0]).decode()).state().rstrip("\n"))
        except ValueError as error:
            if getattr(error, "problem", "") != "state":
                raise
            print("refused")
