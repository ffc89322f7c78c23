"""Merging states by SQL: a database with the two functions that the server asks for.

    katara_merge(type, design, state, other)   the state after the other one was merged
    katara_merge(type, design, state)          an aggregate: all states merged

They are those of the extension that embed/build makes, whose code is proved. Without it they are made here, of the code that
`emit` wrote of the same design; that this code does what the design says is only tested. The SQL of the server is the same.
"""

from __future__ import annotations

import sqlite3
from typing import Callable

from shared_list import SharedList, SharedListError


def add_functions(base: sqlite3.Connection, extension: str | None) -> Callable[[sqlite3.Error], str]:
    """Gives a connection the functions. What it returns says why a statement failed."""
    if extension is not None:
        base.enable_load_extension(True)
        base.load_extension(extension)
        base.enable_load_extension(False)
        return str
    reasons: list[str] = []

    def read(state: str) -> SharedList:
        # SQLite drops the words of an exception, so they are kept beside it
        try:
            return SharedList.from_state(state)
        except SharedListError as error:
            reasons.append(f"katara_merge: {error}")
            raise

    def merged(_type: bytes, _design: bytes, state: str | None, other: str) -> str | None:
        if state is None:
            return None
        it = read(state)
        it.merge(read(other))
        return it.state()

    class Merged:
        def __init__(self) -> None:
            self.replicas: list[SharedList] = []

        def step(self, _type: bytes, _design: bytes, state: str | None) -> None:
            if state is not None:
                self.replicas.append(read(state))

        def finalize(self) -> str | None:
            if not self.replicas:
                return None
            it = SharedList(min(replica.replica for replica in self.replicas))
            for replica in self.replicas:
                it.merge(replica)
            return it.state()

    base.create_function("katara_merge", 4, merged, deterministic=True)
    base.create_aggregate("katara_merge", 3, Merged)  # type: ignore[arg-type]
    return lambda error: reasons.pop() if reasons else str(error)
