# Written by `katara emit` from the type shared_list and a design of it; write it anew rather than change it.
#
# Proved of the design: it answers each query as the type does, after the operations that reached the replica,
# in every order that respects their ranks, whatever states come late, twice, in another order or never.
# Not proved: that this code does what the design says.
# It holds if no two replicas ever have the same number, each replica goes on from its newest state, and
# `merge` is only given replicas of this type.

from __future__ import annotations

import json
import re
from dataclasses import dataclass, field
from typing import Any, Callable, Iterator, NamedTuple, TypeVar

_LARGEST = 10**12  # of an argument
_LATEST = 10**9  # of a clock
_LIMIT = 10**18  # of a replica's sum


class TickedValue(NamedTuple):
    """What is kept in `ticked`: of two the greater counts, compared from the left."""

    time: int
    replica: int
    flag: bool


_TICKED_START = TickedValue(0, 0, False)


class TitleValue(NamedTuple):
    """What is kept in `title`: of two the greater counts, compared from the left."""

    time: int
    replica: int
    to: str


_TITLE_START = TitleValue(0, 0, "")


class SaidValue(NamedTuple):
    """What is kept in `said`: of two the greater counts, compared from the left."""

    time: int
    replica: int
    text: str


_SAID_START = SaidValue(0, 0, "")


@dataclass
class SharedListChanges:
    """What a merge changed: of each part with keys those that it touched."""

    # Whether anything changed that a query may read.
    any: bool = False
    # The keys of `add` that it touched, in no order.
    add: list[str] = field(default_factory=list)
    # The keys of `take` that it touched, in no order.
    take: list[str] = field(default_factory=list)
    # The keys of `ticked` that it touched, in no order.
    ticked: list[str] = field(default_factory=list)
    # Whether `title` changed.
    title: bool = False
    # The keys of `said` that it touched, in no order.
    said: list[str] = field(default_factory=list)


class SharedList:
    """A shopping list that several people share: how much is wanted of each thing, what is ticked off, and what
    the list is called. A name has at most 15 characters. A longer text is said in parts, under a name of its
    own."""

    def __init__(self, replica: int) -> None:
        """A new replica that did nothing. Its number, from 1 to 32, is no other replica's, ever."""
        if type(replica) is not int or not 1 <= replica <= 32:
            raise SharedListError("replica", "a number from 1 to 32 is needed")
        self._replica = replica
        self._clock = 0
        self._marks: dict[int, int] | None = {}
        # At each key what each replica added in all.
        self._add: dict[str, dict[int, int]] = {}
        # At each key what each replica added in all.
        self._take: dict[str, dict[int, int]] = {}
        # `ticked: table name -> bool = false`. At each key the value that counts most.
        self._ticked: dict[str, TickedValue] = {}
        # `title: name = ""`. The value that counts most.
        self._title: TitleValue = _TITLE_START
        # `said: table name -> name = ""`. At each key the value that counts most.
        self._said: dict[str, SaidValue] = {}

    @property
    def replica(self) -> int:
        return self._replica

    @property
    def clock(self) -> int:
        """The time of the last operation that this replica did or heard of."""
        return self._clock

    def add(self, x: str, n: int) -> None:
        """`wanted[x] := wanted[x] + n`, rank time, replica."""
        _check_name("x", x)
        _check_number("n", n, 0)
        time = _next_time(self._clock)
        add_sum = _grown(self._add.get(x, {}), self._replica, n)
        if add_sum > 0:
            self._add.setdefault(x, {})[self._replica] = add_sum
        self._clock = time
        _note_time(self._marks, self._replica, time)

    def take(self, x: str, n: int) -> None:
        """`wanted[x] := wanted[x] - n`, rank time, replica."""
        _check_name("x", x)
        _check_number("n", n, 0)
        time = _next_time(self._clock)
        take_sum = _grown(self._take.get(x, {}), self._replica, n)
        if take_sum > 0:
            self._take.setdefault(x, {})[self._replica] = take_sum
        self._clock = time
        _note_time(self._marks, self._replica, time)

    def tick(self, x: str) -> None:
        """`ticked[x] := true`, rank time, replica."""
        _check_name("x", x)
        time = _next_time(self._clock)
        ticked = TickedValue(time, self._replica, True)
        if self._ticked.get(x, _TICKED_START) < ticked:
            self._ticked[x] = ticked
        self._clock = time
        _note_time(self._marks, self._replica, time)

    def untick(self, x: str) -> None:
        """`ticked[x] := false`, rank time, replica."""
        _check_name("x", x)
        time = _next_time(self._clock)
        ticked = TickedValue(time, self._replica, False)
        if self._ticked.get(x, _TICKED_START) < ticked:
            self._ticked[x] = ticked
        self._clock = time
        _note_time(self._marks, self._replica, time)

    def retitle(self, to: str) -> None:
        """`title := to`, rank time, replica."""
        _check_name("to", to)
        time = _next_time(self._clock)
        title = TitleValue(time, self._replica, to)
        if self._title < title:
            self._title = title
        self._clock = time
        _note_time(self._marks, self._replica, time)

    def say(self, x: str, text_: str) -> None:
        """`said[x] := text`, rank time, replica."""
        _check_name("x", x)
        _check_name("text", text_)
        time = _next_time(self._clock)
        said = SaidValue(time, self._replica, text_)
        if self._said.get(x, _SAID_START) < said:
            self._said[x] = said
        self._clock = time
        _note_time(self._marks, self._replica, time)

    def amount(self, x: str) -> int:
        """Answers `wanted[x]`."""
        _check_name("x", x)
        add = sum(self._add.get(x, {}).values())
        take = sum(self._take.get(x, {}).values())
        return add - take

    def is_ticked(self, x: str) -> bool:
        """Answers `ticked[x]`."""
        _check_name("x", x)
        return self._ticked.get(x, _TICKED_START).flag

    def title_now(self) -> str:
        """Answers `title`."""
        return self._title.to

    def text_of(self, x: str) -> str:
        """Answers `said[x]`."""
        _check_name("x", x)
        return self._said.get(x, _SAID_START).text

    def add_keys(self) -> list[str]:
        """The keys of `add` that were ever touched, in their order. No query says so: it is what the state has."""
        return sorted(self._add)

    def take_keys(self) -> list[str]:
        """The keys of `take` that were ever touched, in their order. No query says so: it is what the state has."""
        return sorted(self._take)

    def ticked_keys(self) -> list[str]:
        """The keys of `ticked` that were ever touched, in their order. No query says so: it is what the state has."""
        return sorted(self._ticked)

    def said_keys(self) -> list[str]:
        """The keys of `said` that were ever touched, in their order. No query says so: it is what the state has."""
        return sorted(self._said)

    def merge(self, other: SharedList) -> SharedListChanges:
        """Takes in what another replica has, or an older state of this one: late, twice, in any order. Answers what
        changed."""
        changed = SharedListChanges()
        self._clock = max(self._clock, other._clock)
        self._marks = _joined_marks(self._marks, other._marks)
        for key_add, sums in other._add.items():
            if _raise_sums(self._add.setdefault(key_add, {}), sums):
                changed.add.append(key_add)
        for key_take, sums in other._take.items():
            if _raise_sums(self._take.setdefault(key_take, {}), sums):
                changed.take.append(key_take)
        for key_ticked, value_ticked in other._ticked.items():
            if self._ticked.get(key_ticked, _TICKED_START) < value_ticked:
                self._ticked[key_ticked] = value_ticked
                changed.ticked.append(key_ticked)
        if self._title < other._title:
            self._title = other._title
            changed.title = True
        for key_said, value_said in other._said.items():
            if self._said.get(key_said, _SAID_START) < value_said:
                self._said[key_said] = value_said
                changed.said.append(key_said)
        changed.any = bool(changed.add) or bool(changed.take) or bool(changed.ticked) or changed.title or bool(changed.said)
        return changed

    def difference(self, known: SharedList) -> SharedList:
        """The least part that a replica with the state `known` lacks: merged there, or into what has all of `known`,
        it gives what merging the whole would. Merge it nowhere else."""
        it = SharedList(self._replica)
        it._clock = self._clock
        it._marks = None
        for key_add, sums in self._add.items():
            more = _sums_beyond(sums, known._add.get(key_add, {}))
            if more:
                it._add[key_add] = more
        for key_take, sums in self._take.items():
            more = _sums_beyond(sums, known._take.get(key_take, {}))
            if more:
                it._take[key_take] = more
        for key_ticked, value_ticked in self._ticked.items():
            if known._ticked.get(key_ticked, _TICKED_START) < value_ticked:
                it._ticked[key_ticked] = value_ticked
        if known._title < self._title or self._title < _TITLE_START:
            it._title = self._title
        for key_said, value_said in self._said.items():
            if known._said.get(key_said, _SAID_START) < value_said:
                it._said[key_said] = value_said
        return it

    def clone(self) -> SharedList:
        """A copy, of the same number: go on with one of them alone."""
        it = SharedList(self._replica)
        it._clock = self._clock
        it._marks = None if self._marks is None else dict(self._marks)
        it._add = {key: dict(sums) for key, sums in self._add.items()}
        it._take = {key: dict(sums) for key, sums in self._take.items()}
        it._ticked = dict(self._ticked)
        it._title = self._title
        it._said = dict(self._said)
        return it

    def __eq__(self, other: object) -> bool:
        """Whether the other one has the same number, time and state."""
        return isinstance(other, SharedList) and self.state() == other.state()

    def __repr__(self) -> str:
        """A text for people."""
        return f"SharedList.from_state({self.state()!r})"

    def state(self) -> str:
        """The text of the state file, which every language of `emit` and `katara` itself read again."""
        parts = [
            [(key, sorted(sums.items())) for key, sums in sorted(self._add.items())],
            [(key, sorted(sums.items())) for key, sums in sorted(self._take.items())],
            [(key, value) for key, value in sorted(self._ticked.items())],
            self._title,
            [(key, value) for key, value in sorted(self._said.items())],
        ]
        text = json.dumps(["state", 1, self._replica, self._clock, parts], separators=(",", ":"))
        return text + "\n"

    @staticmethod
    def from_state(text: str) -> SharedList:
        """The replica that a state file has, with its number and clock."""
        replica, clock, parts = _file(text, 5)
        it = SharedList(replica)
        it._clock = clock
        it._marks = None
        for key_add, value_add in _entries(parts[0], _name):
            it._add[key_add] = _sums(value_add)
            if not it._add[key_add]:
                raise _bad_state()
        for key_take, value_take in _entries(parts[1], _name):
            it._take[key_take] = _sums(value_take)
            if not it._take[key_take]:
                raise _bad_state()
        for key_ticked, value_ticked in _entries(parts[2], _name):
            leaves = _items(value_ticked, 3)
            it._ticked[key_ticked] = TickedValue(_number(leaves[0]), _number(leaves[1]), _flag(leaves[2]))
            if not _TICKED_START < it._ticked[key_ticked]:
                raise _bad_state()
        leaves = _items(parts[3], 3)
        it._title = TitleValue(_number(leaves[0]), _number(leaves[1]), _name(leaves[2]))
        for key_said, value_said in _entries(parts[4], _name):
            leaves = _items(value_said, 3)
            it._said[key_said] = SaidValue(_number(leaves[0]), _number(leaves[1]), _name(leaves[2]))
            if not _SAID_START < it._said[key_said]:
                raise _bad_state()
        return it

    def marks(self) -> str:
        """A line that says of each replica the time of its latest operation here. It is refused as `marks` once a
        state came that had none."""
        return _marks_text(self._replica, self._clock, _known_marks(self._marks))

    def share(self) -> str:
        """The text of a share file, the marks and then the state: what is kept, and what a peer has once it took it."""
        return self.marks() + self.state()

    def packet(self, known: SharedList) -> str:
        """The text of a packet: what this replica has beyond a known one, with the marks of both. Beyond a new replica
        it is all there is."""
        base = _marks_text(self._replica, self._clock, _known_marks(known._marks))
        return base + self.marks() + self.difference(known).state()

    def merge_packet(self, text: str) -> SharedListChanges:
        """Takes in a packet, late, twice, or of any replica. One that leaves out what is missing here is refused as
        `gap`, and nothing changes."""
        marks = _known_marks(self._marks)
        line, _, rest = text.partition("\n")
        base = _read_marks(line)
        told = SharedList.from_share(rest)
        if _sums_beyond(base, marks):
            raise SharedListError("gap", "what is missing here isn't in the packet")
        return self.merge(told)

    @staticmethod
    def from_share(text: str) -> SharedList:
        """The replica that a share file has, with its number, clock and marks."""
        line, _, rest = text.partition("\n")
        marks = _read_marks(line)
        it = SharedList.from_state(rest)
        it._marks = marks
        return it


class SharedListError(ValueError):
    """A call that is refused. `problem` is `argument`, `replica` (its number), `clock` or `sum` (their limits), `state` (a text),
    `gap` (a packet leaves out what is missing here) or `marks` (which aren't known)."""

    def __init__(self, problem: str, text: str) -> None:
        super().__init__(text)
        self.problem = problem


def _check_name(what: str, value: str) -> None:
    if not isinstance(value, str) or not re.fullmatch("[0-9A-Za-z_.-]{0,15}", value):
        raise SharedListError("argument", f"{what} is no name")


def _check_number(what: str, value: int, least: int) -> None:
    if type(value) is not int or not least <= value <= _LARGEST:
        raise SharedListError("argument", f"{what} is no number from {least} to {_LARGEST}")


def _next_time(clock: int) -> int:
    if clock >= _LATEST:
        raise SharedListError("clock", "the clock is at its end")
    return clock + 1


def _note_time(marks: dict[int, int] | None, replica: int, time: int) -> None:
    """A replica's mark is its latest time, unless no marks are known."""
    if marks is not None and time > marks.get(replica, 0):
        marks[replica] = time


def _grown(sums: dict[int, int], replica: int, more: int) -> int:
    """A replica's sum with some more, which may be no greater than _LIMIT."""
    value = sums.get(replica, 0) + more
    if value > _LIMIT:
        raise SharedListError("sum", "a sum is at its end")
    return value


def _raise_sums(sums: dict[int, int], other: dict[int, int]) -> bool:
    """A replica's sums only grow, so the greater one is the later one. Whether one grew."""
    later = _sums_beyond(other, sums)
    sums.update(later)
    return bool(later)


def _sums_beyond(sums: dict[int, int], known: dict[int, int]) -> dict[int, int]:
    return {replica: value for replica, value in sums.items() if value > known.get(replica, 0)}


def _bad_state() -> SharedListError:
    return SharedListError("state", "no state of shared_list")


def _whole(digits: str) -> int:
    """A number of a text; `-0` is none, as for katara."""
    if digits == "-0":
        raise ValueError(digits)
    return int(digits)


def _file(text: str, count: int) -> tuple[int, int, list[Any]]:
    """The number, the clock and the parts of a state file."""
    try:
        file = json.loads(text, parse_int=_whole)
    except (ValueError, RecursionError):
        raise _bad_state() from None
    head, version, replica, clock, state = _items(file, 5)
    if head != "state" or type(version) is not int or version != 1:
        raise _bad_state()
    return _between(replica, 1, 32), _between(clock, 0, _LATEST), _items(state, count)


def _items(value: Any, count: int | None = None) -> list[Any]:
    if not isinstance(value, list) or count is not None and len(value) != count:
        raise _bad_state()
    return value


def _between(value: Any, least: int, most: int) -> int:
    if type(value) is not int or not least <= value <= most:
        raise _bad_state()
    return value


def _number(value: Any) -> int:
    return _between(value, -(2**63), 2**64 - 1)


def _name(value: Any) -> str:
    if not isinstance(value, str) or not re.fullmatch("[0-9A-Za-z_.-]{0,15}", value):
        raise _bad_state()
    return value


def _flag(value: Any) -> bool:
    if not isinstance(value, bool):
        raise _bad_state()
    return value


_Key = TypeVar("_Key", int, str)


def _ascending(values: list[Any], key: Callable[[Any], _Key]) -> Iterator[_Key]:
    """The keys, each after the one before it."""
    keys = [key(value) for value in values]
    if any(not before < after for before, after in zip(keys, keys[1:])):
        raise _bad_state()
    return iter(keys)


def _entries(value: Any, key: Callable[[Any], _Key]) -> Iterator[tuple[_Key, Any]]:
    """The pairs of a key and a value, in the order of the keys."""
    pairs = [_items(pair, 2) for pair in _items(value)]
    return zip(_ascending([pair[0] for pair in pairs], key), [pair[1] for pair in pairs])


def _sums(value: Any) -> dict[int, int]:
    pairs = _entries(value, lambda replica: _between(replica, 1, 32))
    return {replica: _between(amount, 1, _LIMIT) for replica, amount in pairs}


def _joined_marks(marks: dict[int, int] | None, others: dict[int, int] | None) -> dict[int, int] | None:
    """The marks of both, unless those of one aren't known."""
    if marks is None or others is None:
        return None
    _raise_sums(marks, others)
    return marks


def _known_marks(marks: dict[int, int] | None) -> dict[int, int]:
    if marks is None:
        raise SharedListError("marks", "a state came without marks")
    return marks


def _marks_text(replica: int, clock: int, marks: dict[int, int]) -> str:
    return json.dumps(["state", 1, replica, clock, [sorted(marks.items())]], separators=(",", ":")) + "\n"


def _read_marks(line: str) -> dict[int, int]:
    _, _, parts = _file(line, 1)
    return _sums(parts[0])
