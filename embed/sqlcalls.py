"""The calls of fuzz.py as statements of SQL, by the extension of SQLite or of PostgreSQL. A replica is a state or a share that is kept here."""
import ctypes
import json
import re
import sqlite3

import katara


NEW = ("new", "new_share")


class InSql:
    """A database. `library` runs scripts, which no function of SQL does, and `says` are the words of each code."""

    def __init__(self, library, says):
        self.library, self.says, self.calls = library, says, 0
        # whether replicas begin as shares
        self.shares = False

    def open(self, ty, design, number):
        return Replica(self, ty, design, self.call("new_share" if self.shares else "new", ty, design, number), self.shares)

    def run(self, *texts):
        return self.library.run(*texts)

    def memory(self):
        return self.library.memory()

    def call(self, name, *words):
        """A function's answer, or the error that its words tell."""
        self.calls += 1
        try:
            return self.select(name, words)
        except self.errors as error:
            words, found = str(error), re.search(r": condition (\d+), line (\d+)", str(error))
            place = map(int, found.groups()) if found else ()
            for code, says in enumerate(self.says):
                if f"katara_{name}: {says}" in words.replace("\n", ""):
                    raise katara.KataraError(code, says, *place) from error
            raise


class Sqlite(InSql):
    """SQLite, in which a truth value is 0 or 1."""

    name, errors, has_truths = "SQLite", (sqlite3.Error, OverflowError), False

    def __init__(self, extension, *words):
        super().__init__(*words)
        self.base = sqlite3.connect(":memory:", isolation_level=None)
        self.base.enable_load_extension(True)
        self.base.load_extension(extension)

    def select(self, name, words):
        # (a number of more than 64 bits is none of SQLite's)
        if any(isinstance(it, int) and not -(2**63) <= it < 2**63 for it in words):
            raise sqlite3.Error(f"katara_{name}: {self.says[katara.LIMIT if name in NEW else katara.NO_CALL]}")
        return self.base.execute(f"select katara_{name}({', '.join('?' * len(words))})", words).fetchone()[0]

    def merged(self, ty, design, states):
        self.calls += 1
        rows = ", ".join(f"(?{number})" for number in range(3, 3 + len(states)))
        return self.base.execute(f"select katara_merge(?1, ?2, column1) from (values {rows})", (ty, design, *states)).fetchone()[0]


class Failed(Exception):
    """What PostgreSQL says of a statement."""


class Postgres(InSql):
    """PostgreSQL, by libpq."""

    name, errors, has_truths = "PostgreSQL", (Failed,), True
    # what a zero byte is refused as, which no text of PostgreSQL has, by the place of the argument; and in functions of a share or a state
    ZERO = (katara.BAD_TYPE, katara.BAD_DESIGN, katara.BAD_STATE)
    ZEROS = {
        **dict.fromkeys(["difference", "merge_difference", "marks", "state"], (*ZERO[:2], katara.BAD_SHARE, katara.BAD_SHARE)),
        "merge": (*ZERO, katara.BAD_STATE),
        "keys_beyond": (*ZERO, katara.NO_CALL, katara.BAD_STATE),
    }

    def __init__(self, base, *words):
        super().__init__(*words)
        self.pq = ctypes.CDLL("libpq.so.5")
        for call in ("PQconnectdb", "PQexecParams"):
            getattr(self.pq, call).restype = ctypes.c_void_p
        for call in ("PQgetvalue", "PQresultErrorMessage", "PQerrorMessage"):
            getattr(self.pq, call).restype = ctypes.c_char_p
        self.base = ctypes.c_void_p(self.pq.PQconnectdb(base.encode()))
        if self.pq.PQstatus(self.base):
            raise SystemExit(self.pq.PQerrorMessage(self.base).decode())

    def execute(self, call, words):
        """The first field of the first row."""
        texts = [it.encode() if isinstance(it, str) else it if isinstance(it, bytes) else str(it).lower().encode() for it in words]
        count = len(texts)
        result = self.pq.PQexecParams(
            self.base, call.encode(), count, None, (ctypes.c_char_p * count)(*texts), (ctypes.c_int * count)(*map(len, texts)), None, 0
        )
        result = ctypes.c_void_p(result)
        try:
            if self.pq.PQresultStatus(result) != 2:
                raise Failed(self.pq.PQresultErrorMessage(result).decode(errors="replace"))
            return self.pq.PQgetvalue(result, 0, 0).decode()
        finally:
            self.pq.PQclear(result)

    def select(self, name, words):
        number = 2**63 if name not in NEW else 2**31
        for place, it in enumerate(words):
            zero = b"\0" in (it.encode() if isinstance(it, str) else it) if isinstance(it, (str, bytes)) else not -number <= it < number
            if zero and name in NEW and place == 2:
                raise Failed(f"katara_{name}: {self.says[katara.LIMIT]}")
            if zero:
                code = self.ZEROS.get(name, (*self.ZERO, *[katara.NO_CALL] * 9))[place]
                raise Failed(f"katara_{name}: {self.says[code]}")
        casts = [f"${place}::{'boolean' if isinstance(it, bool) else 'bigint' if isinstance(it, int) else 'text'}" for place, it in enumerate(words, 1)]
        if name in NEW:
            casts[2] = "$3::bigint::integer"
        return self.execute(f"select katara_{name}({', '.join(casts)})", words)

    def merged(self, ty, design, states):
        self.calls += 1
        rows = ", ".join(f"(${number}::text)" for number in range(3, 3 + len(states)))
        return self.execute(f"select katara_merge($1::text, $2::text, s) from (values {rows}) v (s)", (ty, design, *states))


class Replica:
    def __init__(self, base, ty, design, now, shared):
        self.base, self.type, self.design, self.now, self.shared = base, ty, design, now, shared
        self.sorts = {name: sort for name, _, sort in json.loads(design)[2][1]}

    def call(self, name, *words):
        return self.base.call(name, self.type, self.design, self.held(), *words)

    def held(self, other=None):
        """The state or the share, unless it was freed."""
        if self.now is None or other and other.now is None:
            raise katara.KataraError(katara.HANDLE, self.base.says[katara.HANDLE])
        return self.now

    def held_state(self):
        return self.call("state") if self.held() and self.shared else self.held()

    def change(self, *words):
        self.now = self.call("do", *words)
        return json.loads(self.now.splitlines()[-1])[3]

    def value(self, call, words):
        answer, sort = self.call("ask", *words), self.sorts.get(call)
        return answer in (1, "true") if sort == "bool" and answer in (0, 1, "true", "false") else answer if sort == "name" else int(answer)

    def do(self, name, values=()):
        return self.change(name, *values)

    def ask(self, name, values=()):
        return self.value(name, [name, *values])

    def do_text(self, text):
        return self.change(text)

    def ask_text(self, text):
        answer = self.value(text.split(" ")[0] if isinstance(text, str) else "", [text])
        return f'"{answer}"' if isinstance(answer, str) else str(answer).lower()

    def state(self):
        return self.held_state().encode()

    def keys(self, query):
        return json.loads(self.call("keys", query))

    def keys_beyond(self, query, known):
        return json.loads(self.call("keys_beyond", query, known))

    def merge(self, state):
        if isinstance(state, Replica):
            self.held(state)
            if state.design != self.design:
                # (a state doesn't tell of which design it is)
                raise katara.KataraError(katara.OTHER_DESIGN, self.base.says[katara.OTHER_DESIGN])
            other = state.held_state()
            state = other if self.base.calls % 2 else self.base.merged(self.type, self.design, [other, self.held_state()])
        self.now, self.shared = self.base.call("merge", self.type, self.design, self.held_state(), state), False

    def restore(self, state):
        self.held()
        self.now, self.shared = self.base.call("merge", self.type, self.design, state, state), False

    def held_share(self):
        """What has marks; a state is refused."""
        try:
            self.call("marks")
        except katara.KataraError as error:
            if error.code == katara.BAD_SHARE and not self.shared:
                raise katara.KataraError(katara.NO_MARKS, self.base.says[katara.NO_MARKS]) from error
            raise
        return self.now

    def share(self):
        return self.held_share().encode()

    def difference(self, known=b""):
        self.held_share()
        return self.call("difference", *([known] if known or self.base.calls % 2 else [])).encode()

    def merge_difference(self, packet):
        self.held_share()
        self.now = self.call("merge_difference", packet)

    def marks(self):
        self.held_share()
        return self.call("marks").encode()

    def restore_share(self, share):
        """Its own packet changes nothing, and the library writes it anew."""
        packet = self.base.call("difference", self.type, self.design, share)
        self.now, self.shared = self.base.call("merge_difference", self.type, self.design, share, packet), True

    def free(self):
        self.now = None
