#!/usr/bin/env python3
"""The server of the shared lists: the page, and two calls by which devices get a number and each other's changes.

    python3 server.py [--port 8000] [--host 127.0.0.1] [--data lists.db] [--extension katara.so]

    POST /join {"key", "device", "make", "number", "given"}              {"number"}
    POST /sync {"key", "device", "mark", "packet", "given", "wait"}      {"mark", "packet", "whole", "given"}

Secrets are in bodies and never in addresses, which others write down. A refusal has a status and {"error"}.
"""

from __future__ import annotations

import argparse
import gzip
import hashlib
import json
import mimetypes
import pathlib
import re
import sys
import threading
import time
from http.server import BaseHTTPRequestHandler, ThreadingHTTPServer
from typing import Any

from lists import DEVICES, Lists, Refused

PAGE = pathlib.Path(__file__).parent / "page"
BODY_BYTES = 2_000_000
WAIT = 25.0  # seconds that a call waits for something new; proxies often end one after 30 or 60
WAITING = 500  # calls that may wait at the same time
SECRET = re.compile(r"[A-Za-z0-9_-]{22,64}")
# nothing comes from elsewhere, nothing goes elsewhere, and no other page shows this one
POLICY = "default-src 'self'; base-uri 'none'; form-action 'none'; frame-ancestors 'none'"


def page_files() -> dict[str, tuple[str, bytes]]:
    """The files of the page by their addresses. A browser takes the page anew when service.js changes, so that has a hash of all."""
    files = {f"/{it.name}": it.read_bytes() for it in sorted(PAGE.iterdir())}
    version = hashlib.sha256(b"".join(files.values())).hexdigest()[:16]
    files["/service.js"] = files["/service.js"].replace(b"VERSION_OF_ALL_FILES", version.encode())
    files["/"] = files["/index.html"]
    types = {".mjs": "text/javascript", ".html": "text/html; charset=utf-8"}
    return {name: (types.get(pathlib.Path(name).suffix) or mimetypes.guess_type(name)[0] or "text/html; charset=utf-8", it) for name, it in files.items()}


class Server(ThreadingHTTPServer):
    daemon_threads = True
    request_queue_size = 100

    def __init__(self, address: tuple[str, int], lists: Lists) -> None:
        super().__init__(address, Handler)
        self.lists, self.files = lists, page_files()
        # whoever uses the database holds it; told when a list has grown
        self.grown = threading.Condition()
        self.waiting = 0

    def handle_error(self, request: Any, client_address: Any) -> None:
        # whoever doesn't wait for the answer asks again
        if not isinstance(sys.exc_info()[1], ConnectionError):
            super().handle_error(request, client_address)

    def join(self, asked: dict[str, Any]) -> dict[str, Any]:
        claimed, given = self.number(asked, "number"), self.number(asked, "given")
        with self.grown:
            return {"number": self.lists.join(*self.secrets(asked), asked.get("make") is True, claimed or None, given)}

    def sync(self, asked: dict[str, Any]) -> dict[str, Any]:
        mark, packet = asked.get("mark"), asked.get("packet")
        # (JSON also has halves of signs, which are in no text)
        if not (isinstance(mark, str) and isinstance(packet, str) and mark.isascii() and packet.isascii()):
            raise Refused(400, "a mark and a packet are texts of ASCII")
        given = self.number(asked, "given")
        with self.grown:
            news = self.lists.sync(*self.secrets(asked), mark, packet, given)
            if news.grew:
                self.grown.notify_all()
            until = time.monotonic() + (WAIT if asked.get("wait") is True else 0)
            while not (packet or news.packet or news.whole) and self.waiting < WAITING and (left := until - time.monotonic()) > 0:
                self.waiting += 1
                self.grown.wait(left)
                self.waiting -= 1
                news = self.lists.sync(*self.secrets(asked), mark, packet)
        return {"mark": news.mark, "packet": news.packet or "", "whole": news.whole, "given": news.given}

    @staticmethod
    def number(asked: dict[str, Any], name: str) -> int:
        number = asked.get(name, 0)
        if type(number) is not int or not 0 <= number <= DEVICES:
            raise Refused(400, f"{name} is a number up to {DEVICES}")
        return number

    @staticmethod
    def secrets(asked: dict[str, Any]) -> tuple[str, str]:
        key, device = asked.get("key"), asked.get("device")
        if not all(isinstance(it, str) and SECRET.fullmatch(it) for it in (key, device)):
            raise Refused(400, "a key and a device are 22 to 64 letters, digits, - and _")
        return key, device  # type: ignore[return-value]


class Handler(BaseHTTPRequestHandler):
    server: Server
    protocol_version = "HTTP/1.1"
    timeout = 60
    disable_nagle_algorithm = True

    def do_GET(self) -> None:
        # a body isn't read, and would be taken for the next call
        self.close_connection |= self.lengths() not in ([], [("content-length", "0")])
        found = self.server.files.get(self.path.partition("?")[0])
        if found is None:
            return self.answer(404, {"error": "there is no such page"})
        self.send(200, *found)

    def do_POST(self) -> None:
        calls = {"/join": self.server.join, "/sync": self.server.sync}
        try:
            asked = self.asked()
            if self.path not in calls:
                raise Refused(404, "there is no such call")
            self.answer(200, calls[self.path](asked))
        except Refused as refused:
            self.answer(refused.status, {"error": refused.reason})

    def lengths(self) -> list[tuple[str, str]]:
        """All that the headers say of the length of a body; headers that aren't well-formed may say anything."""
        if self.headers.defects:
            return [("", "")]
        return [(name.lower(), said) for name, said in self.headers.items() if name.strip().lower() in ("content-length", "transfer-encoding")]

    def asked(self) -> dict[str, Any]:
        lengths = self.lengths()
        length = lengths[0][1] if len(lengths) == 1 and lengths[0][0] == "content-length" else ""
        # a body that isn't read would be taken for the next call
        closes, self.close_connection = self.close_connection, True
        if not re.fullmatch(r"[0-9]{1,15}", length):
            raise Refused(411, "a body with its length is needed")
        if int(length) > BODY_BYTES:
            raise Refused(413, f"a body has at most {BODY_BYTES} bytes")
        body = self.rfile.read(int(length))
        self.close_connection = closes
        try:
            asked = json.loads(body)
        except (ValueError, RecursionError):
            raise Refused(400, "the body isn't JSON") from None
        if not isinstance(asked, dict):
            raise Refused(400, "the body isn't an object")
        return asked

    def answer(self, status: int, said: dict[str, Any]) -> None:
        self.send(status, "application/json", json.dumps(said).encode())

    def send(self, status: int, kind: str, body: bytes) -> None:
        self.send_response(status)
        if len(body) > 1000 and "gzip" in self.headers.get("Accept-Encoding", ""):
            body = gzip.compress(body, 5)
            self.send_header("Content-Encoding", "gzip")
        for name, value in {
            "Content-Type": kind,
            "Content-Length": str(len(body)),
            "Cache-Control": "no-cache" if self.command == "GET" else "no-store",
            "Content-Security-Policy": POLICY,
            "Referrer-Policy": "no-referrer",
            "X-Content-Type-Options": "nosniff",
        }.items():
            self.send_header(name, value)
        if self.close_connection:
            self.send_header("Connection", "close")
        self.end_headers()
        self.wfile.write(body)

    def log_message(self, *_: object) -> None:
        """Nothing is written down of who calls."""


def main() -> None:
    words = argparse.ArgumentParser(description="The server of the shared lists.")
    words.add_argument("--port", type=int, default=8000, help="0 is any that is free")
    words.add_argument("--host", default="127.0.0.1")
    words.add_argument("--data", default="lists.db", help="a file of SQLite")
    words.add_argument("--extension", help="katara.so that embed/build made, so that states are merged by the proved code")
    given = words.parse_args()
    server = Server((given.host, given.port), Lists(given.data, given.extension))
    print(f"http://{given.host}:{server.server_port}", flush=True)
    server.serve_forever()


if __name__ == "__main__":
    main()
