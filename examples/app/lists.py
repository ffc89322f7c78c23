"""The lists in SQLite: who has which number, what each device has sent, and what is new since a mark.

Each call is one transaction, and it answers after the commit: so a server that is killed at any moment has told nobody what it
forgets. Each call may come again, late or in another order, and then changes nothing.
"""

from __future__ import annotations

import hashlib
import pathlib
import secrets
import sqlite3
from contextlib import contextmanager
from typing import Iterator, NamedTuple

from katara_sql import add_functions

HERE = pathlib.Path(__file__).parent
DEVICES = 32  # numbers that a design has
LISTS = 100_000
STATE_BYTES = 1_000_000  # of what one device sent to a list, all in all
PACKETS = 500  # that are kept of a list; who was away for longer gets the whole
PACKET_BYTES = 2_000_000  # of these packets, all in all, so that no call merges more

SCHEMA = """
-- the lists are read by the design that wrote them
create table if not exists design (type text not null, design text not null);
-- of secrets there are hashes alone, so that who reads the file gets into no list; numbers up to `given` were given out
create table if not exists list (id text primary key, given integer not null default 0) without rowid;
create table if not exists device (
    list text not null references list,
    number integer not null check (number between 1 and 32),
    id text not null,
    state text,
    primary key (list, number),
    unique (list, id)
) without rowid;
-- what came, in this order; a mark is a random word, so that a database from a backup doesn't give out a second time what devices
-- take for something else
create table if not exists packet (
    list text not null references list,
    version integer not null,
    mark text not null,
    number integer,
    state text,
    primary key (list, version)
) without rowid;
"""


class Refused(Exception):
    """A call that isn't done, with a status of HTTP and the reason in words."""

    def __init__(self, status: int, reason: str) -> None:
        super().__init__(reason)
        self.status, self.reason = status, reason


class News(NamedTuple):
    """What a device lacks: a state that it merges, and up to where it then has everything."""

    mark: str
    packet: str | None
    # it is the whole list: the server doesn't know what the device had before
    whole: bool
    # numbers up to this one were given out
    given: int
    # something came with the call that the list lacked
    grew: bool = False


def hashed(secret: str) -> str:
    return hashlib.sha256(secret.encode()).hexdigest()


class Lists:
    def __init__(self, path: str, extension: str | None = None) -> None:
        self.base = sqlite3.connect(path, isolation_level=None, check_same_thread=False)
        self.why = add_functions(self.base, extension)
        # a commit returns when it is on the disk
        self.base.executescript("pragma journal_mode = wal; pragma synchronous = full; pragma foreign_keys = on;" + SCHEMA)
        files = tuple((HERE / f"list.{it}").read_text() for it in ("type", "design"))
        with self.transaction() as base:
            base.execute("insert into design select ?, ? where not exists (select 1 from design)", files)
            if base.execute("select type, design from design").fetchall() != [files]:
                raise SystemExit(f"{path} has lists of another design")

    @contextmanager
    def transaction(self) -> Iterator[sqlite3.Connection]:
        self.base.execute("begin immediate")
        try:
            yield self.base
            self.base.execute("commit")
        except BaseException:
            self.base.execute("rollback")
            raise

    def join(self, key: str, device: str, make: bool = False, claimed: int | None = None, given: int = 0) -> int:
        """The number of a device, the same one whenever it asks.

        A server that was set back may have forgotten it: `claimed` is the number that it has, and up to `given` it knows of others.
        """
        with self.transaction() as base:
            at = self.list_of(key, make)
            found = base.execute("select number from device where list = ? and id = ?", (at, hashed(device))).fetchone()
            if found:
                return int(found[0])
            if base.execute("select 1 from device where list = ? and number = ?", (at, claimed)).fetchone():
                raise Refused(409, "another device has this number")
            number = claimed or self.given(at, given) + 1
            if number > DEVICES:
                raise Refused(403, f"this list has had {DEVICES} devices, which are the most it can have")
            self.given(at, max(number, given))
            base.execute("insert into device (list, number, id) values (?, ?, ?)", (at, number, hashed(device)))
            return number

    def given(self, at: str, known: int) -> int:
        """Up to which number all were given out, as far as the server and a device know."""
        self.base.execute("update list set given = ? where id = ? and given < ?", (known, at, known))
        return int(self.base.execute("select given from list where id = ?", (at,)).fetchone()[0])

    def list_of(self, key: str, make: bool) -> str:
        at = hashed(key)
        if self.base.execute("select 1 from list where id = ?", (at,)).fetchone():
            return at
        if not make:
            raise Refused(403, "there is no list with this key")
        if self.base.execute("select count(*) from list").fetchone()[0] >= LISTS:
            raise Refused(507, "there are too many lists here")
        self.base.execute("insert into list (id) values (?)", (at,))
        self.base.execute("insert into packet values (?, 0, ?, null, null)", (at, secrets.token_urlsafe(9)))
        return at

    def sync(self, key: str, device: str, mark: str, packet: str, given: int = 0) -> News:
        """Keeps what a device sends on top of what it had at a mark, and says what it lacks since then."""
        with self.transaction() as base:
            found = base.execute("select list, number from device where list = ? and id = ?", (hashed(key), hashed(device))).fetchone()
            if not found:
                raise Refused(403, "there is no list with this key that has this device")
            at, number = found
            given = self.given(at, given)
            known = base.execute("select version from packet where list = ? and mark = ?", (at, mark)).fetchone()
            if known is None:
                # The packet may build on what isn't here. The device sends it anew, on top of this.
                return News(self.newest(at)[1], self.whole(at), True, given)
            before = self.newest(at)[0]
            grew = bool(packet) and self.keep(at, number, packet)
            (news,) = base.execute(
                "select katara_merge(type, design, state) from packet, design where list = ? and version > ? and version <= ?", (at, known[0], before)
            ).fetchone()
            return News(self.newest(at)[1], news, False, given, grew)

    def newest(self, at: str) -> tuple[int, str]:
        version, mark = self.base.execute("select version, mark from packet where list = ? order by version desc limit 1", (at,)).fetchone()
        return version, mark

    def whole(self, at: str) -> str | None:
        state: str | None
        (state,) = self.base.execute("select katara_merge(type, design, state) from device, design where list = ?", (at,)).fetchone()
        return state

    def keep(self, at: str, number: int, packet: str) -> bool:
        """Whether a packet has something that this device hadn't sent before; then it is kept."""
        try:
            before, after = self.base.execute(
                """select before.state, katara_merge(type, design, each.state)
                   from design, device as before, (select state from device where list = :at and number = :number union all select :packet) as each
                   where before.list = :at and before.number = :number""",
                {"at": at, "number": number, "packet": packet},
            ).fetchone()
        except sqlite3.OperationalError as error:
            raise Refused(422, self.why(error)) from error
        if after == before:
            return False
        if len(after) > STATE_BYTES:
            raise Refused(413, f"a device may send {STATE_BYTES} bytes to a list, all in all")
        version = self.newest(at)[0] + 1
        self.base.execute("update device set state = ? where list = ? and number = ?", (after, at, number))
        self.base.execute("insert into packet values (?, ?, ?, ?, ?)", (at, version, secrets.token_urlsafe(9), number, packet))
        self.base.execute(
            """delete from packet where list = :at and version < :version and (version <= :version - :packets or version <= (
                   select max(version) from (select version, sum(length(state)) over (order by version desc) as bytes from packet where list = :at)
                   where bytes > :bytes))""",
            {"at": at, "version": version, "packets": PACKETS, "bytes": PACKET_BYTES},
        )
        return True
