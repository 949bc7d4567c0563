#!/usr/bin/env python3
"""Serves a page on this machine on which a bank is played with, answered by the program.

The page keeps a script. The program is one running `rbbank script` with a pipe, which is given each line that it hasn't
had. If the page goes back, it is started again on fewer lines: the replies to a script depend on its lines alone.

  GET  /, /page.css, /*.js     the page           POST /world         a script or histories: what happened, as JSON
  GET  /puzzles.json           its puzzles        POST /histories     a script: the histories of its sites
  GET  /commands.js            what can be asked
  GET  /examples               what examples/ has POST /migrated      histories of version 1, in version 2
  GET  /examples/NAME          its text           POST /picture       a script or histories: as draw.py draws it
                                                  POST /crash/SITE    a script: its site, started from its journal
                                                  POST /close         a script: the next bank's configuration
"""
from __future__ import annotations

import argparse
import contextlib
import functools
import http.server
import json
import os
import re
import sys
import threading
import webbrowser
from typing import Callable

sys.dont_write_bytecode = True
import child  # noqa: E402,F401  (which finds the tools of examples/)
import answers  # noqa: E402
import bank  # noqa: E402

PAGE = os.path.join(child.HERE, "page")
KINDS = {".html": "text/html", ".css": "text/css", ".js": "text/javascript", ".json": "application/json"}
POLICY = "default-src 'self'; style-src 'self' 'unsafe-inline'; img-src 'self' data:; frame-ancestors 'none'"
MOST_BYTES = 8_000_000  # of a request
PORT = 8017
# what the page lists, in this order: what is there to be read, and then what tests take
SCRIPTS, HISTORIES, MIGRATIONS, BAD, JOURNALS = GROUPS = (
    "Scripts", "Histories", "Migrations", "Scripts with a bad line", "Journals of tests")


def port(text: str) -> int:
    """A port's number, 0 for a free one."""
    if not text.isdecimal() or int(text) > 65_535:
        raise argparse.ArgumentTypeError("a port is 0 to 65535")
    return int(text)


def options() -> argparse.Namespace:
    reader = argparse.ArgumentParser(description=__doc__, formatter_class=argparse.RawDescriptionHelpFormatter)
    reader.add_argument("--port", metavar="N", type=port, default=PORT, help=f"else {PORT}; if it is taken, a free one")
    reader.add_argument("--no-browser", action="store_true", help="only print the address")
    reader.add_argument("--open", metavar="NAME", default="", help="begin with this example, as stale_token")
    reader.add_argument("--program", metavar="PATH", help="the program to ask; else the one that is built")
    return reader.parse_args()


def kind_of(path: str) -> str:
    """What an example is, as the page lists it."""
    word = bank.word_of(path)
    if word == "script":
        return BAD if os.path.exists(path.removesuffix("jsonl") + "status") else SCRIPTS
    return {"audit": HISTORIES, "migrate": MIGRATIONS, "site": JOURNALS}[word]


@functools.lru_cache(maxsize=1)
def examples() -> list[dict[str, str]]:
    """The examples: names, kinds, what they show, and their files. Of a site it is the journal at its end."""
    text, found = bank.read(os.path.join(bank.EXAMPLES, "README.md")).decode(), []
    for path in bank.examples():
        name, kind = os.path.basename(path).removesuffix(".jsonl"), kind_of(path)
        file = path.removesuffix("jsonl") + "journal" if kind == JOURNALS else path
        if os.path.exists(file):
            short = re.escape(name.split(".")[0])
            about = re.search(rf"(?m)^\|[^|]*`{short}`[^|]*\| (.*) \|$", text)
            found.append({"name": name, "kind": kind, "about": about.group(1) if about else "", "file": file})
    return sorted(found, key=lambda each: GROUPS.index(each["kind"]))


class Server(http.server.ThreadingHTTPServer):
    """It listens on this machine alone."""

    daemon_threads = True

    def __init__(self, asked: answers.Answers, port: int, handler: type | None = None) -> None:
        self.answers = asked
        try:
            super().__init__(("127.0.0.1", port), handler or Handler)
        except OSError:
            super().__init__(("127.0.0.1", 0), handler or Handler)

    @property
    def address(self) -> str:
        return f"http://127.0.0.1:{self.server_port}/"

    def handle_error(self, request: object, address: object) -> None:
        """A page that goes away in the middle is no fault."""


class Handler(http.server.BaseHTTPRequestHandler):
    """Answers this machine's own pages alone."""

    protocol_version = "HTTP/1.1"
    server: Server

    def answer(self, text: str, kind: str = "text/plain", status: int = 200) -> None:
        body = text.encode("utf-8", "replace")
        self.send_response(status)
        for name, value in (("Content-Type", f"{kind}; charset=utf-8"), ("Content-Length", str(len(body))),
                            ("Cache-Control", "no-store"), ("X-Content-Type-Options", "nosniff"),
                            ("Content-Security-Policy", POLICY)):
            self.send_header(name, value)
        self.end_headers()
        self.wfile.write(body)

    def is_own(self) -> bool:
        """Whether a page of this server asks: another name of this machine, or another page, does not."""
        names = [f"{name}:{self.server.server_port}" for name in ("127.0.0.1", "localhost")]
        origin = self.headers.get("Origin")
        return self.headers.get("Host") in names and origin in (None, *(f"http://{name}" for name in names))

    def do_GET(self) -> None:
        path = self.path.split("?")[0]
        name = "page.html" if path == "/" else path.removeprefix("/")
        example = next((it for it in examples() if path == f"/examples/{it['name']}"), None)
        if not self.is_own():
            self.answer("not this machine's page", status=403)
        elif path == "/examples":
            known = [{key: it[key] for key in ("name", "kind", "about")} for it in examples()]
            asked = {"program": self.server.answers.program.what, "examples": known}
            self.answer(json.dumps(asked), "application/json")
        elif example:
            self.answer(bank.read(example["file"]).decode("utf-8", "replace"))
        elif name == "commands.js":
            self.answer(f"export default {json.dumps(bank.COMMANDS)};", KINDS[".js"])
        elif name in os.listdir(PAGE):
            self.answer(bank.read(os.path.join(PAGE, name)).decode(), KINDS[os.path.splitext(name)[1]])
        else:
            self.answer("no such page", status=404)

    def asked(self) -> tuple[Callable[[bytes], str] | None, str]:
        """What a path asks, and what kind of text answers it."""
        known, crash = self.server.answers, re.fullmatch(r"/crash/(\d{1,3})", self.path)
        if crash:
            return functools.partial(known.crash, int(crash.group(1))), "application/json"
        return {"/world": (known.world, "application/json"), "/picture": (known.picture, "image/svg+xml"),
                "/histories": (functools.partial(known.written, "histories"), "text/plain"),
                "/migrated": (functools.partial(known.written, "migrate"), "text/plain"),
                "/close": (known.close_books, "application/json")}.get(self.path, (None, ""))

    def do_POST(self) -> None:
        length = self.headers.get("Content-Length", "")
        work, kind = self.asked()
        if not self.is_own() or work is None or not re.fullmatch(r"\d{1,9}", length) or int(length) > MOST_BYTES:
            self.close_connection = True
            return self.answer("not asked in this way", status=403)
        data = self.rfile.read(int(length))
        try:
            with self.server.answers.lock:
                answer = work(data)
        except bank.Stop as why:
            return self.answer(str(why), status=422)
        except Exception as fault:  # the page says it, and the next request is answered as before
            return self.answer(f"a fault of the server: {type(fault).__name__}: {fault}", status=500)
        return self.answer(answer, kind)

    def log_message(self, *_: object) -> None:
        """Nothing is written for each request."""


def built(path: str | None) -> bank.Program:
    """The program. Without one it stops in a line: `rt try` would build for a minute at each step back."""
    program = bank.built() if path is None else bank.program(path)
    if program is None:
        raise bank.Stop("no program is built from these sources: make build")
    return program


def main() -> int:
    asked = options()
    if asked.open and asked.open not in [it["name"] for it in examples()]:
        raise bank.Stop(f"examples/ has no {asked.open}")
    with Server(answers.Answers(built(asked.program)), asked.port) as serving:
        address = serving.address + (f"#{asked.open}" if asked.open else "")
        if asked.port not in (0, serving.server_port):
            print(f"port {asked.port} is taken: the tutorial's links go to what is there")
        print(f"{address} is answered by {serving.answers.program.what}; Ctrl-C ends it", flush=True)
        if not asked.no_browser:
            threading.Thread(target=webbrowser.open, args=(address,), daemon=True).start()
        with contextlib.suppress(KeyboardInterrupt):
            serving.serve_forever()
    return 0


if __name__ == "__main__":
    bank.stops_in_words("play", main)
