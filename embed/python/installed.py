"""What a program does with the installed package, which `mypy --strict` reads too: two replicas of a cart, and errors by their classes.

    installed.py TYPE DESIGN
"""
import importlib.metadata
import json
import sys

from katara import CallError, FreedError, Library, ProofError, Replica, StateError, Value


def main(paths: list[str]) -> None:
    library = Library()
    type_text, design_text = (open(path, "rb").read() for path in paths)
    with Replica(library, type_text, design_text, 1) as here, Replica(library, type_text, design_text, 2) as there:
        time: int = here.do("add", ["milk", 2])
        there.do("add", ("milk", 3))
        there.do_text('add "eggs" 12')
        packet: bytes = there.state()
        changed: bool = here.merge(packet)
        things: list[Value] = here.keys("count")
        assert changed and not here.merge(there) and things == ["eggs", "milk"]
        for state in (b"[]", b""):
            try:
                here.merge(state)
            except StateError as error:
                assert error.code == 10, error
        try:
            here.do("add", ["milk"])
        except CallError:
            answer: Value = here.ask("count", ["milk"])
            print(f'count "milk" = {answer}')
        print(f'count "eggs" = {here.ask_text("""count "eggs" """.strip())}')
    try:
        here.state()
    except FreedError:
        pass
    try:
        Replica(library, type_text, json.dumps([*json.loads(design_text)[:5], [], []]), 1)
    except ProofError as error:
        assert (error.condition, error.line) == (1, 1) and time == 1
    assert importlib.metadata.version("katara")


main(sys.argv[1:])
