"""Replicas of designs whose proof was accepted, by the library that `embed/build` makes.

    here = Replica(library, type_text, design_text, 1)
    here.do("add", ["milk", 2])
    there.merge(here.state())        # True: something changed
    there.ask("count", ["milk"])     # 2
    there.keys("count")              # ["milk"]

`do_text` and `ask_text` are for calls that are text already, from a log or a script. Never build such a text from user input:
`milk" 1000000 #` between quotes is another call. katara.h and docs/EMBEDDING.md say what a caller must keep.
"""
from __future__ import annotations

import ctypes
import json
import pathlib
import types
import weakref
from collections.abc import Callable, Iterable
from typing import Any, NoReturn, Union

Value = Union[bool, int, str]
"""An argument of a call, and the answer to a query: a truth value, a whole number or a name."""
Text = Union[str, bytes, bytearray, memoryview]

DONE, NO_MEMORY, ROOM, HANDLE, BAD_TYPE, BAD_DESIGN, OTHER_SIGNATURE, BAD_PROOF, NO_CALL, LIMIT, BAD_STATE, BAD_SCRIPT, OTHER_DESIGN, GAP, NO_MARKS, BAD_SHARE = range(16)


class KataraError(Exception):
    """A call that did nothing, with its code; each code has a class of its own below."""

    def __init__(self, code: int, words: str, condition: int | None = None, line: int | None = None) -> None:
        super().__init__(words if condition is None else f"{words}: condition {condition}, line {line}")
        self.code, self.condition, self.line = code, condition, line


class OutOfMemoryError(KataraError, MemoryError):
    """There isn't enough memory; the replica is as it was."""


class FreedError(KataraError):
    """The replica was freed before."""


class TypeFileError(KataraError):
    """The type file is refused."""


class DesignFileError(KataraError):
    """The design file is refused."""


class SignatureError(KataraError):
    """The design file has another signature than the type."""


class ProofError(KataraError):
    """The proof isn't accepted: `condition` and `line` are the place of its first fault."""


class CallError(KataraError, ValueError):
    """The design has no such operation or query, or it takes other arguments."""


class LimitError(KataraError, ValueError):
    """A replica's number isn't from 1 to 32, a time would pass 10^9, or a sum 10^18."""


class StateError(KataraError, ValueError):
    """The bytes aren't a state file of the design."""


class Gap(KataraError):
    """Operations are missing that come before those of a packet: ask its sender for what lies beyond your own `share` or `marks`."""


class NoMarksError(KataraError):
    """The replica doesn't know its marks, since it merged or restored a state that came without any."""


class ShareError(KataraError, ValueError):
    """The bytes aren't a share file, or aren't a packet, of the design."""


class ScriptError(KataraError, ValueError):
    """The script is refused."""


class OtherDesignError(KataraError, ValueError):
    """The other replica has a design that keeps something else."""


_ERRORS: dict[int, type[KataraError]] = {
    NO_MEMORY: OutOfMemoryError,
    HANDLE: FreedError,
    BAD_TYPE: TypeFileError,
    BAD_DESIGN: DesignFileError,
    OTHER_SIGNATURE: SignatureError,
    BAD_PROOF: ProofError,
    NO_CALL: CallError,
    LIMIT: LimitError,
    BAD_STATE: StateError,
    BAD_SCRIPT: ScriptError,
    OTHER_DESIGN: OtherDesignError,
    GAP: Gap,
    NO_MARKS: NoMarksError,
    BAD_SHARE: ShareError,
}


class _Handle(ctypes.Structure):
    _fields_ = [("at", ctypes.c_void_p)]


class _Value(ctypes.Structure):
    _fields_ = [("kind", ctypes.c_uint64), ("high", ctypes.c_int64), ("low", ctypes.c_uint64), ("name", ctypes.c_char * 16)]


_TRUTH, _NUMBER, _NAME = range(3)
_SIZE, _BYTES, _CODE, _LONG = ctypes.c_size_t, ctypes.c_char_p, ctypes.c_uint32, ctypes.c_uint64
_AT, _ROOM = ctypes.POINTER(_Handle), [ctypes.POINTER(ctypes.c_char), _SIZE, ctypes.POINTER(_SIZE)]


def _bytes(text: Text) -> bytes:
    # (`bytes` of a number would be as many zeros)
    return text.encode() if isinstance(text, str) else bytes(memoryview(text))


def _passed(values: Iterable[Value | bytes]) -> tuple[ctypes.Array[_Value], int]:
    """What is passed of truth values, whole numbers and names, and how many there are."""
    if isinstance(values, (str, bytes, bytearray, memoryview)):
        raise TypeError("the arguments are a list, and this is a single name")
    # a copy, since a list of the caller's may change between two looks at it
    values = tuple(values)
    passed = (_Value * max(len(values), 1))()
    for place, value in zip(passed, values):
        if isinstance(value, bool):
            place.kind, place.low = _TRUTH, value
        elif isinstance(value, int):
            # of a number of more than 128 bits the lower ones would be another number, so it is none that a call takes
            place.kind, place.high, place.low = _NUMBER if -(2**127) <= value < 2**127 else 3, value >> 64, value & (2**64 - 1)
        else:
            name = _bytes(value)
            # a zero byte within would end the name before its end
            place.kind, place.name = 3 if b"\0" in name else _NAME, name[:16]
    return passed, len(values)


def _value(passed: _Value) -> Value:
    if passed.kind == _TRUTH:
        return bool(passed.low)
    said: Value = (passed.high << 64) + passed.low if passed.kind == _NUMBER else passed.name.decode()
    return said


def _listed(keys: bytes) -> list[Value]:
    listed: list[Value] = json.loads(keys)
    return listed


class Library:
    """The shared library at a path, or the one beside this file, if a package has it."""

    def __init__(self, path: str | None = None) -> None:
        if path is None:
            path = str(pathlib.Path(__file__).with_name("libkatara.so"))
        # a call keeps the interpreter's lock, so that threads which share a replica call one after the other
        self.lib = lib = ctypes.PyDLL(path)
        text = [_BYTES, _SIZE]
        for name, words in {
            "open": [_AT, *text, *text, _CODE, ctypes.POINTER(_LONG), ctypes.POINTER(_LONG)],
            "do": [_AT, *text, ctypes.POINTER(_LONG)],
            "ask": [_AT, *text, *_ROOM],
            "operation": [_AT, *text, ctypes.POINTER(_CODE)],
            "query": [_AT, *text, ctypes.POINTER(_CODE)],
            "do_numbered": [_AT, _CODE, ctypes.POINTER(_Value), _SIZE, ctypes.POINTER(_LONG)],
            "ask_numbered": [_AT, _CODE, ctypes.POINTER(_Value), _SIZE, ctypes.POINTER(_Value)],
            "state": [_AT, *_ROOM],
            "keys": [_AT, _CODE, *_ROOM],
            "keys_beyond": [_AT, _CODE, *text, *_ROOM],
            "merge": [_AT, *text, ctypes.POINTER(_CODE)],
            "merge_from": [_AT, _AT, ctypes.POINTER(_CODE)],
            "restore": [_AT, *text],
            "share": [_AT, *_ROOM],
            "difference": [_AT, *text, *_ROOM],
            "merge_difference": [_AT, *text, ctypes.POINTER(_CODE)],
            "marks": [_AT, *_ROOM],
            "restore_share": [_AT, *text],
            "replica_new": [_AT, _AT, _CODE],
            "run": [*text, *text, *text, *_ROOM],
            "message": [_CODE, *_ROOM],
            "version": [*_ROOM],
        }.items():
            call = getattr(lib, f"katara_{name}")
            call.argtypes, call.restype = words, _CODE
        lib.katara_free.argtypes, lib.katara_free.restype = [_AT], None
        # as long as the longest answer of each call so far, so that one is made twice only if none was as long
        self.rooms: dict[int, int] = {}

    def answer(self, call: Callable[..., int], *words: Any) -> bytes:
        """What a call writes that ends with a room; the room grows until it fits."""
        room, length = self.rooms.get(id(call), 256), _SIZE()
        while True:
            out = ctypes.create_string_buffer(room)
            code = call(*words, out, room, ctypes.byref(length))
            if code != ROOM:
                self.judge(code)
                return ctypes.string_at(out, length.value)
            # (a little more, since states grow)
            room = self.rooms[id(call)] = length.value + length.value // 8

    def judge(self, code: int, condition: int | None = None, line: int | None = None) -> None:
        """Raises the error of a code, if it is one."""
        if code != DONE:
            raise _ERRORS.get(code, KataraError)(code, self.message(code), condition, line)

    def open(self, type_text: Text, design_text: Text, number: int) -> Replica:
        """A new replica with a number, as `Replica(library, ..)` makes it."""
        return Replica(self, type_text, design_text, number)

    def type(self, type_text: Text, design_text: Text) -> Type:
        """A type with its design, as `Type(library, ..)` opens it."""
        return Type(self, type_text, design_text)

    def message(self, code: int) -> str:
        """What a code says, in a few words."""
        return self.answer(self.lib.katara_message, code).decode()

    def run(self, type_text: Text, design_text: Text, script: Text) -> str:
        """What a design writes on a script, as `katara run` does."""
        first, second, third = _bytes(type_text), _bytes(design_text), _bytes(script)
        return self.answer(self.lib.katara_run, first, len(first), second, len(second), third, len(third)).decode()

    def version(self) -> str:
        """The version of the library."""
        return self.answer(self.lib.katara_version).decode()


class Type:
    """A type with its design, whose proof is checked once; `replica` makes replicas of it.

        cart = Type(library, type_text, design_text)
        here = cart.replica(1)
    """

    def __init__(self, library: Library, type_text: Text, design_text: Text) -> None:
        self.first = Replica(library, type_text, design_text, 1)

    def replica(self, number: int) -> Replica:
        """A new replica with this number, from 1 to 32."""
        return Replica._of(self.first, number)

    def free(self) -> None:
        """Frees the memory of the type, as the end of a `with` block does. Its replicas stay."""
        self.first.free()

    def __enter__(self) -> Type:
        return self

    def __exit__(
        self, kind: type[BaseException] | None, error: BaseException | None, traceback: types.TracebackType | None
    ) -> None:
        self.free()


class Replica:
    """A replica with a number, of the design in a file whose proof is accepted for a type.

    Its memory is freed with the object, or at the end of a `with` block. It can't be copied or pickled: use `state` and `restore`.
    """

    def __init__(self, library: Library, type_text: Text, design_text: Text, number: int) -> None:
        self.library, self.handle = library, _Handle(None)
        self.numbers: dict[tuple[str, str], int] = {}
        first, second = _bytes(type_text), _bytes(design_text)
        condition, line = _LONG(), _LONG()
        # of a greater number the lower bits would be another one, so it is passed as 0, which is refused
        number = number if 0 < number < 2**32 else 0
        code = library.lib.katara_open(
            self.handle, first, len(first), second, len(second), number, ctypes.byref(condition), ctypes.byref(line)
        )
        library.judge(code, *((condition.value, line.value) if code == BAD_PROOF else ()))
        self._opened()

    @classmethod
    def _of(cls, other: Replica, number: int) -> Replica:
        """Another replica of the type and the design of one."""
        replica = cls.__new__(cls)
        replica.library, replica.handle, replica.numbers = other.library, _Handle(None), {}
        number = number if 0 < number < 2**32 else 0
        other.library.judge(other.library.lib.katara_replica_new(other.handle, replica.handle, number))
        replica._opened()
        return replica

    def _opened(self) -> None:
        # (what is called holds the library and the handle, and not the replica, which would live for ever)
        self._freed = weakref.finalize(self, self.library.lib.katara_free, self.handle)

    def number(self, kind: str, name: str) -> int:
        """The number of the operation or query with this name."""
        if (kind, name) not in self.numbers:
            text, number = _bytes(name), _CODE()
            self.library.judge(getattr(self.library.lib, f"katara_{kind}")(self.handle, text, len(text), ctypes.byref(number)))
            self.numbers[kind, name] = int(number.value)
        return self.numbers[kind, name]

    def do(self, name: str, values: Iterable[Value | bytes] = ()) -> int:
        """Does the operation with this name and a list of arguments (truth values, whole numbers, names), and returns its time."""
        number, time = self.number("operation", name), _LONG()
        self.library.judge(self.library.lib.katara_do_numbered(self.handle, number, *_passed(values), ctypes.byref(time)))
        return int(time.value)

    def ask(self, name: str, values: Iterable[Value | bytes] = ()) -> Value:
        """The answer to the query with this name and a list of arguments: a truth value, a whole number or a name."""
        number, answer = self.number("query", name), _Value()
        self.library.judge(self.library.lib.katara_ask_numbered(self.handle, number, *_passed(values), ctypes.byref(answer)))
        return _value(answer)

    def do_text(self, call: Text) -> int:
        """Does an operation that is a text as in a script, `add "milk" 2`, and returns its time."""
        text, time = _bytes(call), _LONG()
        self.library.judge(self.library.lib.katara_do(self.handle, text, len(text), ctypes.byref(time)))
        return int(time.value)

    def ask_text(self, call: Text) -> str:
        """The text of the answer to a query that is a text as in a script, `count "milk"`."""
        text = _bytes(call)
        return self.library.answer(self.library.lib.katara_ask, self.handle, text, len(text)).decode()

    def state(self) -> bytes:
        """The bytes of the state file."""
        return self.library.answer(self.library.lib.katara_state, self.handle)

    def keys(self, query: str) -> list[Value]:
        """The keys at which the query with this name may find something, ascending: those that one of the tables, sets and sums by key
        has which it reads, also those of things that were removed."""
        number = self.number("query", query)
        return _listed(self.library.answer(self.library.lib.katara_keys, self.handle, number))

    def keys_beyond(self, query: str, known: Text) -> list[Value]:
        """Those of these keys at which there is something that a state file lacks: with an earlier one of this replica, the keys at
        which it has changed since. What the query reads without a key (the time at which a table was emptied) isn't looked at."""
        number, text = self.number("query", query), _bytes(known)
        return _listed(self.library.answer(self.library.lib.katara_keys_beyond, self.handle, number, text, len(text)))

    def merge(self, state: Text | Replica) -> bool:
        """Merges the bytes of a state file, or the state of another replica, and returns whether that changed anything.

        The replica doesn't know its marks any more; see `share`.
        """
        if isinstance(state, Replica):
            return self.merge_from(state)
        text, changed = _bytes(state), _CODE()
        self.library.judge(self.library.lib.katara_merge(self.handle, text, len(text), ctypes.byref(changed)))
        return bool(changed.value)

    def merge_from(self, other: Replica) -> bool:
        """Merges the state of another replica directly, and returns whether that changed anything."""
        if other.library.lib is not self.library.lib:
            return self.merge(other.state())
        if other is self:
            return False
        changed = _CODE()
        self.library.judge(self.library.lib.katara_merge_from(self.handle, other.handle, ctypes.byref(changed)))
        return bool(changed.value)

    def restore(self, state: Text) -> None:
        """Becomes the replica in a state file, with its number and its clock."""
        text = _bytes(state)
        self.library.judge(self.library.lib.katara_restore(self.handle, text, len(text)))

    def share(self) -> bytes:
        """The bytes of the share file: what a peer has once it merged this replica's packets, and from which it can be set up again.

        A replica has one as long as it knows its marks: until it merges or restores a state that came without any.
        """
        return self.library.answer(self.library.lib.katara_share, self.handle)

    def difference(self, known: Text = b"") -> bytes:
        """A packet of what the replica has beyond a share file that the peer is known to have; without one, of all that it has."""
        text = _bytes(known)
        return self.library.answer(self.library.lib.katara_difference, self.handle, text, len(text))

    def merge_difference(self, packet: Text) -> bool:
        """Merges a packet, late, again or from a third replica, and returns whether that changed anything. Raises `Gap` if operations
        are missing that come before those of the packet."""
        text, changed = _bytes(packet), _CODE()
        self.library.judge(self.library.lib.katara_merge_difference(self.handle, text, len(text), ctypes.byref(changed)))
        return bool(changed.value)

    def marks(self) -> bytes:
        """The bytes of its marks: for each replica the time of its latest operation in the state."""
        return self.library.answer(self.library.lib.katara_marks, self.handle)

    def restore_share(self, share: Text) -> None:
        """Becomes the replica in a share file, with its number, its clock and its marks."""
        text = _bytes(share)
        self.library.judge(self.library.lib.katara_restore_share(self.handle, text, len(text)))

    def free(self) -> None:
        """Frees the memory, as the end of the object does too. Each later call raises an error."""
        self._freed()

    def __enter__(self) -> Replica:
        return self

    def __exit__(
        self, kind: type[BaseException] | None, error: BaseException | None, traceback: types.TracebackType | None
    ) -> None:
        self.free()

    def __reduce__(self) -> NoReturn:
        # two objects of one handle would give it back twice
        raise TypeError("a replica isn't copied: take its state, and restore it")
