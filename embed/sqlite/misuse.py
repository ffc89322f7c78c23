"""Calls of SQLite's functions that must be refused, or taken as they are meant; after those that are refused nothing has changed.

    misuse.py EXTENSION GALLERY
"""
import json
import pathlib
import sqlite3
import sys

extension, gallery = sys.argv[1:]
base = sqlite3.connect(":memory:", isolation_level=None)
base.enable_load_extension(True)
base.load_extension(extension)


def files(name):
    return [(pathlib.Path(gallery) / name / f"{name}.{it}").read_text() for it in ("type", "design")]


def one(call, *words):
    return base.execute(f"select {call}", words).fetchone()[0]


def must(so, what):
    if not so:
        sys.exit(f"SQLite: {what}")


def refused(says, call, *words):
    before = base.total_changes
    try:
        base.execute(call if call.startswith(("update", "insert")) else f"select {call}", words).fetchall()
    except sqlite3.Error as error:
        must(says in str(error), f"`{call[:80]}` says `{error}`, and not `{says}`")
        must(base.total_changes == before, f"`{call[:80]}` changed something")
        return
    sys.exit(f"SQLite: a call that must be refused was done: {call[:200]}")


cart, design = files("cart")
new = one("katara_new(?, ?, 1)", cart, design)
must(new == '["state",1,1,0,[[]]]\n', f"a new replica is {new}")
must(one("katara_new(?, ?, 32)", cart.encode(), design.encode()) == new.replace("1,1,", "1,32,"), "blobs are taken")
milk = one("""katara_do(?, ?, ?, 'add "milk" 2')""", cart, design, new)
must(milk == one("katara_do(?, ?, ?, 'add', 'milk', 2)", cart, design, new), "a text and values differ")
must(milk == one("katara_do(?, ?, ?, 'add', ?, 2)", cart, design, new, b"milk"), "a name is a blob too")
must(one("""katara_ask(?, ?, ?, 'count "milk"')""", cart, design, milk) == 2, "the answer to a text")
must(one("katara_ask(?, ?, ?, 'count', 'milk')", cart, design, milk) == 2, "the answer to values")
must(one("typeof(katara_ask(?, ?, ?, 'count', 'milk'))", cart, design, milk) == "integer", "the kind of an answer")
must(one("katara_merge(?, ?, ?, ?)", cart, design, new, milk) == milk, "a merge of another state of one's own")
must(one("katara_version()")[0].isdigit(), "a version")

# what is refused, with its reason
for call, words in (("katara_new(?, ?, 1)", ()), ("katara_do(?, ?, ?, 'add', 'milk', 2)", (milk,)), ("katara_ask(?, ?, ?, 'count', 'milk')", (milk,)), ("katara_merge(?, ?, ?, ?)", (milk, milk)), ("katara_merge(?, ?, ?)", (milk,))):
    refused("the type file is refused", call, "type", design, *words)
    refused("the type file is refused", call, "", design, *words)
    refused("the type file is refused", call, b"\xff\0", design, *words)
    refused("the design file is refused", call, cart, "[]", *words)
    refused("the design file is refused", call, cart, b"", *words)
    refused("another signature", call, cart, files("counter")[1], *words)
    refused("the proof isn't accepted: condition 1, line 1", call, cart, json.dumps([*json.loads(design)[:5], [], []]), *words)
    refused("are texts", call, 5, design, *words)
    refused("are texts", call, cart, 1.5, *words)
    refused("are texts", call, cart, None, *words)
    refused("at most 16777216 bytes", call, cart + "#" * 2**24, design, *words)
    refused("at most 16777216 bytes", call, cart, design + " " * 2**24, *words)
for number in (0, 33, -1, 2**32 + 1, 2**63 - 1, -(2**63)):
    refused("past its limit", "katara_new(?, ?, ?)", cart, design, number)
for number in ("1", 1.0, None, b"1"):
    refused("whole number from 1 to 32", "katara_new(?, ?, ?)", cart, design, number)
for state in ("", "[]", milk[:-4], milk + "x", milk.replace("milk", "mi lk"), b"\xff", "[" * 300, '["state",1,33,0,[[]]]', '["state",1,1,0,[[],[]]]', milk.replace("]]", "]]\0", 1)):
    refused("katara_do: the text is no state file", "katara_do(?, ?, ?, 'add', 'milk', 2)", cart, design, state)
    refused("katara_ask: the text is no state file", "katara_ask(?, ?, ?, 'count', 'milk')", cart, design, state)
    refused("katara_merge: the text is no state file", "katara_merge(?, ?, ?, ?)", cart, design, state, milk)
    refused("katara_merge: the text is no state file", "katara_merge(?, ?, ?, ?)", cart, design, milk, state)
    refused("katara_merge: the text is no state file", "katara_merge(?, ?, ?)", cart, design, state)
    refused("no state file", "katara_merge(?1, ?2, column1) from (values (?3), (?4))", cart, design, milk, state)
for call in ("", "add", "add milk 2", 'add "milk"', 'add "milk" 2 2', 'add "milk" -1', 'count "milk"', "x", 'add "milk" 2\nadd "milk" 2', b"\xff", "add\0"):
    refused("katara_do: the call is none", "katara_do(?, ?, ?, ?)", cart, design, milk, call)
for call in ("", "count", 'count "milk" 2', "count 2", 'add "milk" 2'):
    refused("katara_ask: the call is none", "katara_ask(?, ?, ?, ?)", cart, design, milk, call)
for name, *values in (("add", "milk"), ("add", "milk", -1), ("add", "milk", 2**62), ("add", 2, "milk"), ("add", "milk", "2"), ("add", 'milk" 1000000 #', 1), ("add", "mi\0lk", 1), ("add", "a_name_of_16_xxx", 1), ("add", "milk", 1, 1), ("ad", "milk", 1), ("add\0", "milk", 1), ("", "milk", 1), ("count", "milk", 1)):
    refused("katara_do: the call is none", f"katara_do(?, ?, ?, ?{', ?' * len(values)})", cart, design, milk, name, *values)
for value in (1.5, None):
    refused("0 or 1 for a truth value", "katara_do(?, ?, ?, 'add', 'milk', ?)", cart, design, milk, value)
refused("are texts", "katara_do(?, ?, ?, ?)", cart, design, milk, None)
refused("are texts", "katara_do(?, ?, ?, ?, 1)", cart, design, milk, None)
refused("are texts", "katara_do(?, ?, ?, ?)", cart, design, 5, "add")
refused("are texts", "katara_merge(?, ?, ?, ?)", cart, design, milk, None)
for count in (0, 1, 2, 9):
    for name in ("new", "do", "ask", "merge", "keys", "keys_beyond", "new_share", "state", "marks", "difference", "merge_difference"):
        refused("wrong number of arguments", f"katara_{name}({', '.join('?' * count)})", *[cart] * count)
refused("past its limit", "katara_do(?, ?, ?, 'add', 'milk', 1)", cart, design, milk.replace("1,1,1,", "1,1,1000000000,"))

# keys, in a state and in a share
new_share = one("katara_new_share(?, ?, 1)", cart, design)
must(new_share == '["state",1,1,0,[[]]]\n' * 2, f"a new share is {new_share}")
share = one("""katara_do(?, ?, ?, 'add "milk" 2')""", cart, design, new_share)
must(share == '["state",1,1,1,[[[1,1]]]]\n' + milk, f"a share after an operation is {share}")
must(share == one("katara_do(?, ?, ?, 'add', 'milk', 2)", cart, design, new_share), "a text and values differ on a share")
both = one("katara_do(?, ?, ?, 'add', 'eggs', 12)", cart, design, share)
for replica in (both, one("katara_state(?, ?, ?)", cart, design, both)):
    must(one("katara_keys(?, ?, ?, 'count')", cart, design, replica).strip() == '["eggs","milk"]', "keys")
    must(one("katara_keys_beyond(?, ?, ?, 'count', ?)", cart, design, replica, milk).strip() == '["eggs"]', "keys that are new")
    must(one("katara_ask(?, ?, ?, 'count', 'eggs')", cart, design, replica) == 12, "an answer of a share")
    must(base.execute("select value, katara_ask(?1, ?2, ?3, 'count', value) from json_each(katara_keys(?1, ?2, ?3, 'count'))", (cart, design, replica)).fetchall() == [("eggs", 12), ("milk", 2)], "all answers")
must(one("katara_keys_beyond(?, ?, ?, 'count', ?)", cart, design, milk, one("katara_state(?, ?, ?)", cart, design, both)).strip() == "[]", "no key is new")
must(one("katara_marks(?, ?, ?)", cart, design, both) == '["state",1,1,2,[[[1,2]]]]\n', "marks")
# packets: of all, of what is new; again; over a gap, which changes nothing
packet, late = one("katara_difference(?, ?, ?)", cart, design, share), one("katara_difference(?, ?, ?, ?)", cart, design, both, share)
must(packet == one("katara_difference(?, ?, ?, '')", cart, design, share), "a packet of all")
there = one("katara_new_share(?, ?, 2)", cart, design)
refused("katara_merge_difference: operations are missing that come before", "katara_merge_difference(?, ?, ?, ?)", cart, design, there, late)
there = one("katara_merge_difference(?, ?, ?, ?)", cart, design, there, packet)
for _ in range(2):
    there = one("katara_merge_difference(?, ?, ?, ?)", cart, design, there, late)
    must(there == '["state",1,2,2,[[[1,2]]]]\n["state",1,2,2,[[["eggs",[[1,12]]],["milk",[[1,2]]]]]]\n', f"a share after packets is {there}")
must(len(one("katara_difference(?, ?, ?, ?)", cart, design, there, both)) < len(late), "a packet of nothing has no entries")
base.execute("create temp table shared as select ?1 as share, 1 as n union all select ?2, 2", (there, one("katara_new_share(?, ?, 3)", cart, design)))
before = base.execute("select * from shared").fetchall()
refused("operations are missing", "update shared set share = katara_merge_difference(?, ?, share, ?)", cart, design, late)
must(base.execute("select * from shared").fetchall() == before, "an update over a gap changed a row")
for text in ("", "[]", milk, share[:-4], share + "x", share.replace("milk", "mi lk"), b"\xff", "\n", "\n\n", packet, one("katara_marks(?, ?, ?)", cart, design, share), share.replace("\n", "\0\n", 1)):
    for name in ("state", "marks", "difference"):
        refused(f"katara_{name}: the text is no share file", f"katara_{name}(?, ?, ?)", cart, design, text)
    refused("katara_merge_difference: the text is no share file", "katara_merge_difference(?, ?, ?, ?)", cart, design, text, packet)
    if text:
        refused("katara_difference: the text is no share file", "katara_difference(?, ?, ?, ?)", cart, design, share, text)
    if text != packet:
        refused("katara_merge_difference: the text is no share file or packet", "katara_merge_difference(?, ?, ?, ?)", cart, design, share, text)
    if text != milk:
        for name in ("do", "ask", "keys"):
            refused(f"katara_{name}: the text is no state file", f"katara_{name}(?, ?, ?, 'count')", cart, design, text)
for call in ("katara_merge(?, ?, ?, ?4)", "katara_merge(?, ?, ?4, ?3)", "katara_merge(?, ?, ?4, ?4)", "katara_keys_beyond(?, ?, ?, 'count', ?4)"):
    refused("the text is no state file", call, cart, design, milk, share)
for query in ("", "add", "coun", 'count "milk"', b"\xff", "count\0"):
    refused("katara_keys: the call is none", "katara_keys(?, ?, ?, ?)", cart, design, milk, query)
    refused("katara_keys_beyond: the call is none", "katara_keys_beyond(?, ?, ?, ?, ?3)", cart, design, milk, query)
for number in (0, 33, -1, 2**32 + 1):
    refused("katara_new_share: a number is past its limit", "katara_new_share(?, ?, ?)", cart, design, number)
for call in ("katara_difference(?, ?, ?, null)", "katara_merge_difference(?, ?, ?, null)", "katara_keys(?, ?, ?, null)", "katara_keys_beyond(?, ?, ?, 'count', null)", "katara_keys_beyond(?, ?, ?, 'count', 5)"):
    refused("are texts", call, cart, design, share)
for call in ("katara_state(?, ?, null)", "katara_marks(?, ?, null)", "katara_difference(?, ?, null)", "katara_difference(?, ?, null, '')", "katara_merge_difference(?, ?, null, '')", "katara_keys(?, ?, null, 'count')"):
    must(one(call, cart, design) is None, call)

# no state, no answer
for call in ("katara_do(?, ?, null, 'add', 'milk', 2)", "katara_ask(?, ?, null, 'count', 'milk')", "katara_merge(?, ?, null, ?3)", "katara_merge(?, ?, null)"):
    must(one(call, cart, design, *[milk] * call.count("?3")) is None, call)
must(one("katara_merge(?, ?, value) from json_each('[]')", cart, design) is None, "nothing is merged")

# the aggregate: in each order, with each state once or twice, and NULLs
states = []
for number in (7, 3, 32):
    state = one("katara_new(?, ?, ?)", cart, design, number)
    for thing, n in (("milk", number), (f"t{number}", 1)):
        state = one("katara_do(?, ?, ?, 'add', ?, ?)", cart, design, state, thing, n)
    states.append(state)
spaced = states[1].replace(",", " , ").replace("[", "\n[ ")
merged = set()
for order in ((0, 1, 2), (2, 1, 0), (1, 0, 2), (1, 1, 2, 0, 0), (None, 2, None, 0, 1), (3, 0, 2), (0, 2, 3)):
    base.execute("create temp table some (state)")
    base.executemany("insert into some values (?)", [(None if it is None else [*states, spaced][it],) for it in order])
    merged.add(one("katara_merge(?, ?, state) from some", cart, design))
    base.execute("drop table some")
must(len(merged) == 1, f"the order matters: {merged}")
all_states = merged.pop()
must(all_states.startswith('["state",1,3,2,'), f"the number of {all_states}")
must(one("katara_ask(?, ?, ?, 'count', 'milk')", cart, design, all_states) == 42, "what is merged")
must(one("katara_merge(?, ?, ?)", cart, design, spaced) == states[1], "one state is written as the library writes it")

# a number of more than 64 bits is a text
most = 10**18
rich = [f'["state",1,{it},1,[[["milk",[[{it},{most}]]]]]]\n' for it in range(1, 33)]
base.execute("create temp table rich (state)")
base.executemany("insert into rich values (?)", [(it,) for it in rich])
for count, wanted in ((9, 9 * most), (10, str(10 * most)), (32, str(32 * most))):
    merged = one(f"katara_merge(?, ?, state) from (select state from rich limit {count})", cart, design)
    must(one("katara_ask(?, ?, ?, 'count', 'milk')", cart, design, merged) == wanted, f"the answer {wanted} to values")
    must(one("""katara_ask(?, ?, ?, 'count "milk"')""", cart, design, merged) == wanted, f"the answer {wanted} to a text")
# one argument is a constant, and the other isn't
refused("the design file is refused", "katara_ask(?1, column1, ?2, 'count', 'milk') from (values (?3), ('[]'))", cart, milk, design)
refused("the type file is refused", "katara_ask(column1, ?1, ?2, 'count', 'milk') from (values (?3), ('type'))", design, milk, cart)
# several types in a statement; groups; a group with two designs
kinds = [("cart", cart, design, it) for it in states]
for name, call in (("flag", "raise"), ("counter", "visit"), ("element_set", 'insert "a"')):
    kinds.append((name, *files(name), one("katara_do(?1, ?2, katara_new(?1, ?2, 1), ?3)", *files(name), call)))
base.execute("create table replica (kind text, type text, design text, state text not null)")
base.executemany("insert into replica values (?, ?, ?, ?)", kinds * 3)
groups = dict(base.execute("select kind, katara_merge(type, design, state) from replica group by kind"))
must(groups["cart"] == all_states and all(groups[kind] == state for kind, _, _, state in kinds[3:]), "groups")
refused("different types or designs", "katara_merge(type, design, state) from replica")
# a truth value is 0 or 1, and no name or other number is taken for one
flags = files("feature_flags")
on = one("katara_do(?1, ?2, katara_new(?1, ?2, 1), 'switch', 'dark', 1)", *flags)
must(on == one("""katara_do(?1, ?2, katara_new(?1, ?2, 1), 'switch "dark" true')""", *flags), "a truth value in a call")
must(one("katara_ask(?, ?, ?, 'enabled', 'dark')", *flags, on) == 1, "a truth value as the answer to values")
must(one("""katara_ask(?, ?, ?, 'enabled "dark"')""", *flags, on) == 1, "a truth value as the answer to a text")
off = one("katara_do(?, ?, ?, 'switch', 'dark', 0)", *flags, on)
must(one("katara_ask(?, ?, ?, 'enabled', 'dark')", *flags, off) == 0, "the other truth value")
for value in (2, -1, "true", "1", b"1"):
    refused("katara_do: the call is none", "katara_do(?, ?, ?, 'switch', 'dark', ?)", *flags, on, value)
refused("0 or 1 for a truth value", "katara_do(?, ?, ?, 'switch', 'dark', 1.0)", *flags, on)
# a name is a text, and so is one that isn't there yet
shown = files("display_name")
for change, name in (("rename", "ada"), ("rename", "a_name_of_15_xx")):
    state = one("katara_do(?1, ?2, katara_new(?1, ?2, 1), ?3, ?4)", *shown, change, name)
    must(one("katara_ask(?, ?, ?, 'name_of')", *shown, state) == name, "a name as an answer")
must(one("katara_ask(?1, ?2, katara_new(?1, ?2, 1), 'name_of')", *shown) == "", "an empty name")
# an update that fails at its last row changes no row
base.execute("create table broken as select ?1 as state, 1 as n union all select ?2, 2", states[:2])
base.execute("insert into broken values ('[]', 99)")
before = base.execute("select * from broken").fetchall()
refused("no state file", "update broken set state = katara_do(?, ?, state, 'add', 'milk', 1)", cart, design)
must(base.execute("select * from broken").fetchall() == before, "an update that failed changed a row")
# as SQLite sees them: in an index, a generated column, a check and a view, even if the schema isn't trusted
base.execute("pragma trusted_schema = off")
base.execute(f"create table kept (state text not null, milk integer generated always as (katara_ask('{cart.replace(chr(39), chr(39) * 2)}', '{design}', state, 'count', 'milk')) stored)")
base.executemany("insert into kept (state) values (?)", [(it,) for it in states])
base.execute("create index by_milk on kept (milk)")
must([it for it, in base.execute("select milk from kept order by milk")] == [3, 7, 32], "a generated column")
refused("no state file", "insert into kept (state) values ('[1,2,3]')")
# a database of UTF-16
base = sqlite3.connect(":memory:", isolation_level=None)
base.enable_load_extension(True)
base.load_extension(extension)
base.execute("pragma encoding = 'UTF-16le'")
base.execute("create table wide (type text, design text, state text)")
base.execute("insert into wide values (?1, ?2, katara_new(?1, ?2, 5))", (cart, design))
base.execute("update wide set state = katara_do(type, design, state, 'add', 'milk', 2)")
must(base.execute("select state, katara_ask(type, design, state, 'count', 'milk') from wide").fetchone() == (milk.replace("1,1,1", "1,5,1").replace("[1,2]", "[5,2]"), 2), "UTF-16")
# many designs in turn, more than are kept
for turn in range(40):
    spaced = cart + "\n" * (turn % 13)
    must(one("katara_ask(?, ?, ?, 'count', 'milk')", spaced, design, milk) == 2, "a type that was opened again")
# closed with a statement that isn't at its end
rows = base.execute("select katara_ask(type, design, state, 'count', 'milk') from wide, (values (1), (2), (3))")
rows.fetchone()
base.close()
