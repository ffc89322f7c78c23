#!/usr/bin/env python3
"""Tries the server by itself: numbers, what is refused and why, calls that come again and in any order, limits, and SIGKILL at any moment.

    try/server.py [--seed N] [--kills N] [--extension katara.so]
"""

from __future__ import annotations

import argparse
import http.client
import json
import pathlib
import random
import socket
import subprocess
import sys
import tempfile
import threading
import time

APP = pathlib.Path(__file__).resolve().parent.parent
sys.path.insert(0, str(APP))
sys.dont_write_bytecode = True
from shared_list import SharedList  # noqa: E402

words = argparse.ArgumentParser()
words.add_argument("--seed", type=int, default=1)
words.add_argument("--kills", type=int, default=12)
words.add_argument("--extension")
given = words.parse_args()
drawn = random.Random(given.seed)
folder = tempfile.TemporaryDirectory()
looked = 0


def look(name: str, holds: object, seen: object = "") -> None:
    global looked
    looked += 1
    if not holds:
        sys.exit(f"examples/app/try/server.py: {name}: {str(seen)[:1000]}")


class Server:
    """The server as a process."""

    def __init__(self, data: str) -> None:
        self.words = [sys.executable, "-B", str(APP / "server.py"), "--port", "0", "--data", data, *(["--extension", given.extension] if given.extension else [])]
        self.start()

    def start(self) -> None:
        self.process = subprocess.Popen(self.words, stdout=subprocess.PIPE)
        assert self.process.stdout
        self.port = int(self.process.stdout.readline().decode().rpartition(":")[2])

    def kill(self) -> None:
        self.process.kill()
        self.process.wait()

    def post(self, path: str, body: bytes, **headers: str) -> tuple[int, dict]:
        made = http.client.HTTPConnection("127.0.0.1", self.port, timeout=40)
        try:
            made.request("POST", path, body, headers)
            got = made.getresponse()
            return got.status, json.loads(got.read())
        finally:
            made.close()

    def call(self, path: str, **asked: object) -> dict:
        status, said = self.post(path, json.dumps(asked).encode())
        look(f"{path} is answered", status == 200, said)
        return said


class Client:
    """A device that sends and merges, as the page does."""

    def __init__(self, server: Server, key: str, name: str) -> None:
        self.server, self.secrets = server, {"key": key, "device": name.ljust(22, "_")}
        number = server.call("/join", **self.secrets, make=True)["number"]
        self.list, self.known, self.mark = SharedList(number), SharedList(number), ""

    def packet(self) -> str:
        before = self.known.state()
        after = SharedList.from_state(before)
        after.merge(self.list)
        return "" if after.state() == before else self.list.difference(self.known).state()

    def learn(self, sent: str, said: dict) -> None:
        if said["whole"]:
            self.known = SharedList(self.list.replica)
        for text in (said["packet"], "" if said["whole"] else sent):
            if text:
                self.known.merge(SharedList.from_state(text))
                self.list.merge(SharedList.from_state(text))
        self.mark = said["mark"]

    def sync(self) -> dict:
        sent = self.packet()
        said = self.server.call("/sync", **self.secrets, mark=self.mark, packet=sent)
        self.learn(sent, said)
        return said

    def edit(self) -> None:
        thing = drawn.choice(["Milk", "Bread", "Salt", "..abcdefghijk0"])
        drawn.choice([lambda: self.list.add(thing, drawn.randrange(4)), lambda: self.list.take(thing, 1), lambda: self.list.tick(thing), lambda: self.list.say(thing, drawn.choice("ab")), lambda: self.list.retitle(thing)])()

    def parts(self) -> list:
        return json.loads(self.list.state())[4]


def key(name: str) -> str:
    return name.replace(" ", "_").ljust(24, "-")


def numbers(server: Server) -> None:
    first = {"key": key("numbers"), "device": "a" * 22}
    status, said = server.post("/join", json.dumps(first).encode())
    look("a list that nobody made lets nobody in", status == 403 and "no list with this key" in said["error"], said)
    look("the first number", server.call("/join", **first, make=True) == {"number": 1})
    look("a device has one number", server.call("/join", **first) == {"number": 1} and server.call("/join", **first, make=True, number=7) == {"number": 1})
    look("a device that the server forgot keeps its number", server.call("/join", **{**first, "device": "b" * 22}, number=4) == {"number": 4})
    status, said = server.post("/join", json.dumps({**first, "device": "c" * 22, "number": 4}).encode())
    look("but not one that another device has", status == 409, said)
    for number in (-1, 33, "4", True):
        status, said = server.post("/join", json.dumps({**first, "device": "c" * 22, "number": number}).encode())
        look("and no other than 1 to 32", status == 400, said)
    given_out = [server.call("/join", **{**first, "device": f"{it:022}"})["number"] for it in range(28)]
    look("numbers are given out once", given_out == list(range(5, 33)), given_out)
    status, said = server.post("/join", json.dumps({**first, "device": "d" * 22}).encode())
    look("and there are 32", status == 403 and "32 devices" in said["error"], said)
    after = {"key": key("set back"), "device": "a" * 22}
    look("who knows of more numbers tells it", server.call("/join", **after, make=True, number=2, given=5) == {"number": 2})
    look("and they aren't given out again", server.call("/join", **{**after, "device": "b" * 22}) == {"number": 6})
    for other in ({**first, "key": key("numbersx")}, {**first, "device": "e" * 22}):
        status, said = server.post("/sync", json.dumps({**other, "mark": "", "packet": ""}).encode())
        look("nobody gets news without the key and a number", status == 403, said)


def refused(server: Server) -> None:
    it = Client(server, key("refused"), "a")
    it.list.add("Milk", 2)
    it.list.retitle("Shop")
    it.sync()
    it.sync()
    good, before = it.list.state(), it.mark
    asked = {**it.secrets, "mark": before, "packet": good}
    bodies: list[tuple[int, str, object]] = [(400, "isn't JSON", b""), (400, "isn't JSON", b"\xff"), (400, "isn't JSON", b"[" * 100_000), (400, "isn't an object", b"[1]"), (400, "a mark and a packet are texts", {**asked, "packet": 5}), (400, "a mark and a packet are texts", {**asked, "mark": None})]
    bodies += [(400, "a key and a device", {**asked, name: bad}) for name in ("key", "device") for bad in (None, 5, "", "x" * 21, "x" * 65, "x" * 21 + "é", ["x" * 22])]
    # half of a sign, which JSON has, but no text
    bodies += [(400, "texts of ASCII", {**asked, name: bad}) for name in ("mark", "packet") for bad in ("\ud800", "é")]
    for text in ("x", "[]", "null", good[:-3], good + "x", good.replace("Milk", "Mi lk"), good.replace('"state",1', '"state",2'), good.replace("[[1,2]]", "[[33,2]]"), good.replace("[[1,2]]", "[[1,0]]"), good.replace("[[1,2]]", "[[1,2],[1,3]]"), good.replace("[[1,2]]", "[[1,9223372036854775807]]"), '["state",1,1,1000000001,[[],[],[],[0,0,""],[]]]', '["state",1,1,1,[[]]]', '["state",1,0,1,[[],[],[],[0,0,""],[]]]', "[" * 1000):
        bodies.append((422, "katara_merge: ", {**asked, "packet": text}))
    for status, reason, body in bodies:
        got, said = server.post("/sync", body if isinstance(body, bytes) else json.dumps(body).encode())
        look(f"{str(body)[:200]} is refused, with its reason", (got, reason in said["error"]) == (status, True), (got, said))
    look("and then nothing has changed", server.call("/sync", **it.secrets, mark=before, packet="") == {"mark": before, "packet": "", "whole": False, "given": 1})
    for status, path, headers in ((404, "/nothing", {}), (413, "/sync", {"Content-Length": "2000001"}), (411, "/sync", {"Content-Length": "-1"})):
        got, said = server.post(path, b"{}", **headers)
        look(f"{path} {headers} is refused", got == status, (got, said))


def within(server: Server) -> None:
    """A body that isn't read is never taken for the next call of its connection."""
    inner = b"GET /icon.svg HTTP/1.1\r\n\r\n"
    length = f"Content-Length: {len(inner)}"
    for head in (f"GET / HTTP/1.1\r\n{length}", "GET / HTTP/1.1\r\nTransfer-Encoding: chunked", "POST /sync HTTP/1.1\r\nContent-Length: 2\r\nTransfer-Encoding: chunked", f"POST /nothing HTTP/1.1\r\n{length}", f"POST /sync HTTP/1.1\r\nContent-Length: 0\r\n{length}", f"GET / HTTP/1.1\r\nContent-Length : {len(inner)}"):
        with socket.create_connection(("127.0.0.1", server.port), timeout=40) as it:
            it.sendall(head.encode() + b"\r\n\r\n" + inner)
            it.shutdown(socket.SHUT_WR)
            try:
                got = b"".join(iter(lambda: it.recv(65536), b""))
            except ConnectionResetError:
                continue
        look(f"{head} is one call", got.count(b"HTTP/1.1 ") == 1, got[-200:])


def orders(server: Server) -> None:
    """Packets that come twice, late and in another order give the state that their devices have together."""
    for turn in range(4):
        devices = [Client(server, key(f"orders{turn}"), name) for name in "abc"]
        for it in devices:
            it.sync()
        calls = []
        for _ in range(60):
            it = drawn.choice(devices)
            it.edit()
            if drawn.random() < 0.5:
                sent = {**it.secrets, "mark": it.mark, "packet": it.packet()}
                calls.append(sent)
                said = server.call("/sync", **sent)
                if drawn.random() < 0.7:
                    it.learn(sent["packet"], said)
            for old in drawn.sample(calls, min(len(calls), drawn.randrange(3))):
                server.call("/sync", **old)
        for it in devices * 3:
            it.sync()
        late = Client(server, key(f"orders{turn}"), "late")
        late.sync()
        look("all come to one state", all(it.parts() == late.parts() for it in devices), [it.list.state() for it in (*devices, late)])
        merged = SharedList(1)
        for it in devices:
            merged.merge(it.list)
        look("which is that of all together", json.loads(merged.state())[4] == late.parts())


def limits(server: Server) -> None:
    it = Client(server, key("limits"), "a")
    it.sync()
    first = it.mark
    for n in range(520):
        it.list.add("Milk", 1)
        said = it.sync()
        look("what is sent on top of what is known goes in", not said["whole"])
    look("who was away for long gets the whole", server.call("/sync", **it.secrets, mark=first, packet="")["whole"])
    big = SharedList(it.list.replica)
    for n in range(20_000):
        big.add(f"{n:015}", 10**12)
    got, said = server.post("/sync", json.dumps({**it.secrets, "mark": it.mark, "packet": big.state()}).encode())
    look("a device may send so much", got == 200, said)
    more = SharedList(it.list.replica)
    for n in range(90_000, 110_000):
        more.add(f"{n:015}", 10**12)
    got, said = server.post("/sync", json.dumps({**it.secrets, "mark": it.mark, "packet": more.state()}).encode())
    look("and no more", got == 413 and "all in all" in said["error"], said)
    mark = it.mark
    for n in range(3):
        big.tick(f"{n:015}")
        mark = server.call("/sync", **it.secrets, mark=mark, packet=big.state())["mark"]
    look("of packets only so many bytes are kept", server.call("/sync", **it.secrets, mark=it.mark, packet="")["whole"])
    look("and the newest mark", not server.call("/sync", **it.secrets, mark=mark, packet="")["whole"])


def waiting(server: Server) -> None:
    one, other = (Client(server, key("waiting"), name) for name in "ab")
    one.sync()
    other.sync()
    other.sync()
    got: list[dict] = []
    began = time.monotonic()
    waits = threading.Thread(target=lambda: got.append(server.call("/sync", **other.secrets, mark=other.mark, packet="", wait=True)))
    waits.start()
    time.sleep(0.3)
    look("a call waits as long as nothing is new", not got)
    one.list.add("Milk", 1)
    one.sync()
    waits.join()
    look("and is answered then", "Milk" in got[0]["packet"] and time.monotonic() - began < 20, got)


def killing(server: Server) -> None:
    """Devices send and the server is killed at any moment: what was answered is there, what wasn't is sent again."""
    devices = [Client(server, key("killing"), name) for name in "abcd"]
    over, lost = threading.Event(), 0

    def lives(it: Client) -> None:
        nonlocal lost
        while not over.is_set():
            it.list.add(f"thing{drawn.randrange(9)}", 1)
            try:
                it.sync()
            except (OSError, http.client.HTTPException):
                lost += 1
                time.sleep(0.02)

    threads = [threading.Thread(target=lives, args=(it,)) for it in devices]
    for it in threads:
        it.start()
    for _ in range(given.kills):
        time.sleep(0.05 + 0.25 * drawn.random())
        server.kill()
        server.start()
    over.set()
    for it in threads:
        it.join()
    # what each device knows that the server has is there
    late = Client(server, key("killing"), "late")
    late.sync()
    for it in devices:
        late.list.merge(it.known)
    late_parts = late.parts()
    fresh = Client(server, key("killing"), "fresh")
    fresh.sync()
    look("a server that is killed forgets nothing that it answered", fresh.parts() == late_parts, (fresh.list.state(), late.list.state()))
    # one that never had an answer gets the whole first, sends what it has then, and the others get that
    for it in devices * 3:
        it.sync()
    fresh.sync()
    look("and gets the rest", all(it.parts() == fresh.parts() for it in devices))
    look("some calls were lost", lost > 0, lost)


def other_design(server: Server) -> None:
    data = f"{folder.name}/other.db"
    other = Server(data)
    other.kill()
    subprocess.run([sys.executable, "-c", "import sqlite3, sys; base = sqlite3.connect(sys.argv[1]); base.execute('update design set type = type || char(10)'); base.commit()", data], check=True)
    ended = subprocess.run(other.words, capture_output=True, text=True)
    look("lists of another design aren't opened", ended.returncode == 1 and "another design" in ended.stderr, ended.stderr)


began = time.monotonic()
server = Server(f"{folder.name}/lists.db")
try:
    for part in (numbers, refused, within, orders, limits, waiting, killing, other_design):
        part(server)
finally:
    server.kill()
print(f"examples/app/try/server.py: {looked} passed, by {'the extension' if given.extension else 'the code that was emitted'}; {time.monotonic() - began:.0f} s")
