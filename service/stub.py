"""Sites of a bank that answer the console as services do, from states that real ones reported: for browse.py.

Nothing is proved here and nothing is kept: a deposit gets the next name, a cancellation names its operation, a pass
moves the token, and whatever else is asked gets the reply that the test gave for its line. A site can be taken down,
made silent, or lose its replies.
"""
from __future__ import annotations

import copy
import http.server
import json
import os
import queue
import socket
import threading
import time
import urllib.parse
from typing import Any

Json = dict[str, Any]
HERE = os.path.dirname(os.path.abspath(__file__))
ALLOWED = "Authorization, Content-Type, Idempotency-Key"


class Server(http.server.ThreadingHTTPServer):
    daemon_threads = True
    site: Site

    def handle_error(self, request: Any, client_address: Any) -> None:
        """A page that goes away in the middle is no fault."""


class Handler(http.server.BaseHTTPRequestHandler):
    protocol_version = "HTTP/1.1"
    server: Server

    def setup(self) -> None:
        super().setup()
        self.server.site.connections.append(self.connection)

    def answer(self, value: Json, status: int = 200, **more: str) -> None:
        self.send(json.dumps(value).encode(), "application/json", status, **more)

    def send(self, body: bytes, kind: str, status: int = 200, **more: str) -> None:
        self.send_response(status)
        self.heads(kind, **more)
        self.send_header("Content-Length", str(len(body)))
        self.end_headers()
        self.wfile.write(body)

    def heads(self, kind: str, **more: str) -> None:
        self.send_header("Content-Type", kind)
        if self.headers.get("Origin") in self.server.site.bank.addresses:
            self.send_header("Access-Control-Allow-Origin", self.headers["Origin"])
            self.send_header("Access-Control-Allow-Headers", ALLOWED)
        for name, value in more.items():
            self.send_header(name.replace("_", "-"), value)

    def may(self) -> bool:
        """Whether the request has the client's token, if the bank wants one."""
        secret = self.server.site.bank.secret
        if secret is None or self.headers.get("Authorization") == f"Bearer {secret}":
            return True
        self.answer({"error": "no token of a client"}, 401)
        return False

    def do_OPTIONS(self) -> None:
        self.send(b"", "text/plain")

    def do_GET(self) -> None:
        site = self.server.site
        site.silence()
        verb, _, account = urllib.parse.unquote(self.path[1:]).partition("/")
        if self.path == "/":
            with open(site.bank.page, "rb") as file:
                self.send(file.read(), "text/html; charset=utf-8")
        elif not self.may():
            return
        elif verb == "live":
            self.live(site)
        elif verb in ("balance", "statement"):
            self.answer(*site.bank.question(site, verb, account))
        else:
            self.answer(site.state | {"sites": site.bank.addresses} if verb == "state" else {"up": True})

    def live(self, site: Site) -> None:
        self.send_response(200)
        self.heads("text/event-stream")
        self.send_header("Connection", "close")
        self.end_headers()
        self.close_connection = True
        waiting: queue.Queue[Json | None] = queue.Queue()
        waiting.put(site.state)
        site.listeners.append(waiting)
        while (now := waiting.get()) is not None:
            self.wfile.write(f"data: {json.dumps(now)}\n\n".encode())
        site.listeners.remove(waiting)

    def do_POST(self) -> None:
        site, bank = self.server.site, self.server.site.bank
        line = self.rfile.read(int(self.headers["Content-Length"])).decode()
        site.silence()
        if not self.may():
            return
        key = self.headers.get("Idempotency-Key", "")
        with bank.lock:
            event = json.loads(line)
            period = event.pop("bank", None)
            bank.named.add(period)
            bank.asked.append((site.number, key, event))
            if site.busy:
                site.busy -= 1
                return self.answer({"error": "too much waits"}, 503, Retry_After="1")
            if period not in (None, bank.name):
                reply = {"refused": 26, "error": "this is of a period that is closed"}
            else:
                reply = site.known.get(key) or bank.reply(site, event, key)
            if key and "refused" not in reply and "error" not in reply:
                site.known[key] = reply
            site.lost -= 1
        if site.lost >= 0:
            self.close_connection = True
            self.connection.shutdown(socket.SHUT_RDWR)
            return
        self.answer(reply, 409 if "refused" in reply else 400 if "error" in reply else 200)

    def log_message(self, *_: object) -> None:
        """Nothing is written for each request."""


class Site:
    """One site: its state, who listens to it, and how it fails."""

    def __init__(self, bank: Bank, number: int, state: Json) -> None:
        self.bank, self.number, self.state = bank, number, state
        self.listeners: list[queue.Queue[Json | None]] = []
        self.connections: list[socket.socket] = []
        self.known: dict[str, Json] = {}
        self.lost = self.busy = 0  # replies that get lost, and requests that are sent away, the next ones
        self.speaks = threading.Event()
        self.speaks.set()
        self.port = 0
        self.server: Server | None = None
        self.start()

    def start(self) -> None:
        server = Server(("127.0.0.1", self.port), Handler)
        server.site, self.server, self.port = self, server, server.server_port
        threading.Thread(target=server.serve_forever, args=(0.01,), daemon=True).start()

    def down(self) -> None:
        """Ends it as a machine that is switched off: whoever is connected hears no more."""
        if self.server:
            self.server.shutdown()
            self.server.server_close()
        self.server = None
        for connection in self.connections:
            try:
                connection.shutdown(socket.SHUT_RDWR)
            except OSError:
                pass
        self.connections.clear()
        for waiting in list(self.listeners):
            waiting.put(None)

    def silence(self) -> None:
        """Waits while the site is silent: its connections stay, and nothing is answered."""
        self.speaks.wait()

    def tell(self) -> None:
        """Those who listen get the state, since it changed."""
        for waiting in list(self.listeners) if self.speaks.is_set() else []:
            waiting.put(copy.deepcopy(self.state))


class Bank:
    """The sites of a bank, each at an address of this machine."""

    def __init__(self, states: list[Json], page: str) -> None:
        self.page, self.name, self.lock = page, states[0]["bank"], threading.RLock()
        self.secret: str | None = None  # the client's token, if one is wanted
        self.asked: list[tuple[int, str, Json]] = []  # the site, the id and the event of each request
        self.named: set[str | None] = set()  # the banks that the requests named
        self.replies: dict[str, Json] = {}  # by the event, as JSON
        self.addresses: list[str] = []
        self.sites = [Site(self, number, copy.deepcopy(state)) for number, state in enumerate(states)]
        self.addresses += [f"http://127.0.0.1:{site.port}" for site in self.sites]

    def question(self, site: Site, verb: str, account: str) -> tuple[Json, int]:
        balance = site.state["balances"].get(account)
        if balance is None:
            return {"refused": 1}, 409
        rows = [[1, "B0.1", "deposit", 500, True, 500], [2, "B1.1", "cancel", -500, False, 0]]
        return {"balance": balance} | ({"rows": rows, "start": 0} if verb == "statement" else {}), 200

    def reply(self, site: Site, event: Json, key: str = "") -> Json:
        if key and event.keys() & {"pass", "balance", "statement"}:
            return {"error": "an id with what has none"}
        if "deposit" in event:
            return self.deposit(site, *event["deposit"])
        if "cancel" in event:
            return self.cancel(site, event["cancel"])
        if "pass" in event:
            for each in self.up():
                each.state["token"] = {"epoch": 9, "here": each.number == event["pass"], "to": event["pass"]}
                each.tell()
            return {"passed": 9}
        return self.replies.get(json.dumps(event), {"refused": 8, "error": "the site hasn't the token"})

    def up(self) -> list[Site]:
        return [site for site in self.sites if site.server]

    def made(self, site: Site, operation: Json) -> Json:
        """A new blue operation of a site, which all sites that are up apply at once."""
        home = f"B{site.number}."
        numbers = [int(one["name"][len(home):]) for one in site.state["operations"] if one["name"].startswith(home)]
        name = home + str(max(numbers, default=0) + 1)
        for each in self.up():
            clock = each.state["applied"]
            clock[0] = [*(dict(clock[0]) | {site.number: max(numbers, default=0) + 1}).items()]
            place = max((one["place"] for one in each.state["operations"]), default=0) + 1
            each.state["operations"].append(operation | {"name": name, "place": place})
        return {"kind": operation["kind"], "name": name}

    def deposit(self, site: Site, account: str, amount: int) -> Json:
        reply = self.made(site, {"account": account, "amount": amount, "kind": "deposit"})
        for each in self.up():
            each.state["balances"][account] += amount
            each.tell()
        return reply

    def cancel(self, site: Site, target: str) -> Json:
        known = {one["name"]: one for one in site.state["operations"]}
        if target not in known:
            return {"refused": 4}
        reply = self.made(site, {"account": known[target]["account"], "amount": 0, "kind": "cancel", "target": target})
        for each in self.up():
            each.tell()
        return reply

    def stop(self) -> None:
        for site in self.up():
            site.speaks.set()
            site.down()

    def wait_for(self, count: int, seconds: float = 10) -> list[tuple[int, str, Json]]:
        """What was asked, once it is this much, or once the time is over."""
        until = time.monotonic() + seconds
        while len(self.asked) < count and time.monotonic() < until:
            time.sleep(0.01)
        return list(self.asked)
