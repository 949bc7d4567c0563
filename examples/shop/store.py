#!/usr/bin/env python3
"""One store of a small web shop: a site of the bank behind HTTP on loopback, with a journal of its own.

usage: store.py NAME --ports NORTH,SOUTH,WEST --journal FILE

    POST /restock/tea/40       40 pieces of tea come in
    POST /sell/tea/2           2 are sold, or none if there are fewer
    POST /give-back/R1         the pieces of that sale come back
    POST /move/tea/2/south     2 go to the store south
    GET  /stock/tea/north      how many north has, as far as this store knows

Each is answered by the bank's reply. An article in a store is an account, and a piece is a cent. A request may have an
id of its own, as in /sell/tea/2?id=order-7: asked again by it, it is made once.
"""
import argparse
import http.server
import json
import os
import queue
import sys
import threading
import time
import urllib.request

HERE = os.path.dirname(os.path.abspath(__file__))
sys.path.insert(0, os.path.join(HERE, "..", "..", "bindings", "python"))
import rbbank

STORES, ARTICLES = ["north", "south", "west"], ["tea", "cups"]
ACCOUNTS = [f"{article}.{store}" for article in ARTICLES for store in STORES]
CONFIGURATION = json.dumps({"accounts": [[name, 0] for name in ACCOUNTS], "sites": len(STORES), "version": 1})
NO_TOKEN, REDS_MISSING, INBOX_FULL = 8, 9, 16  # refusals of docs/FORMAT.md
HOLD, PATIENCE = 0.1, 5  # seconds that a store keeps the token for its own clients, and that these wait for it
EVENTS = {
    "restock": lambda here, article, count: {"deposit": [f"{article}.{here}", int(count)]},
    "sell": lambda here, article, count: {"withdraw": [f"{article}.{here}", int(count)]},
    "give-back": lambda here, sale: {"cancel": sale},
    "move": lambda here, article, count, to: {"transfer": [f"{article}.{here}", f"{article}.{to}", int(count)]},
    "stock": lambda here, article, store: {"balance": f"{article}.{store}"},
}


def post(port, path, body=b""):
    """Asks a store: its reply, or None if it doesn't answer."""
    try:
        with urllib.request.urlopen(f"http://127.0.0.1:{port}{path}", body, timeout=10) as response:
            return json.load(response)
    except (OSError, ValueError):
        return None


class Store:
    """The site with its journal, and what is still to be sent to each other store."""

    def __init__(self, name, ports, path):
        self.name, self.me, self.ports = name, STORES.index(name), ports
        self.lock, self.taken, self.journal = threading.Lock(), 0.0, open(path, "a+b")
        self.site = rbbank.Site(self.me, CONFIGURATION)
        self.outboxes = {to: queue.Queue() for to in range(len(STORES)) if to != self.me}
        self.replay()
        for to in self.outboxes:
            threading.Thread(target=self.carry, args=[to], daemon=True).start()

    def replay(self):
        """Goes on from the journal. What a crash left after its last whole line is cut off; all is sent again. Another
        bank's journal, and a sealed one, stay as they are."""
        self.journal.seek(0)
        lines, first = self.journal.read(), self.site.entries()
        whole = lines[:lines.rfind(b"\n") + 1]
        if whole and not whole.startswith(first):
            sys.exit(f"store {self.name}: another bank's journal")
        if lines.endswith(b"\n\t"):
            sys.exit(f"store {self.name}: its journal is sealed")
        self.journal.truncate(len(whole))
        if not whole:
            self.keep(first)
        for entry in whole.splitlines()[1:]:
            self.send(json.loads(self.site.replay(entry) or '{"sends":[]}')["sends"])

    def keep(self, entries):
        """Has the disk keep entries. If it doesn't, the store ends: nothing that it answers could be relied on."""
        try:
            self.journal.write(entries)
            self.journal.flush()
            os.fsync(self.journal.fileno())
        except OSError as why:
            print(f"store {self.name}: {why}", file=sys.stderr)
            os._exit(3)

    def answer(self, line):
        """Answers an event. Its entries are kept before anyone sees the answer."""
        with self.lock:
            answer = json.loads(self.site.answer(line))
            self.keep(self.site.entries())
            self.send(answer["sends"])
            self.taken = time.monotonic() if "taken" in answer["reply"] else self.taken
        return answer["reply"]

    def send(self, messages):
        """An operation goes to every other store, the token to the one that it is for."""
        for message in messages:
            for to, outbox in self.outboxes.items():
                if "shadow" in message or message["token"][1] == to:
                    outbox.put(json.dumps(message).encode())

    def carry(self, to):
        """Sends one message after another to a store, each until it is there."""
        while True:
            message = self.outboxes[to].get()
            while post(self.ports[to], "/message", message) in (None, {"refused": INBOX_FULL}):
                time.sleep(0.05)

    def ask(self, event):
        """Answers a client. If that takes the token, the other stores are asked for it, and the event is given again:
        by the same id, if it has one, since a refusal leaves none."""
        until = time.monotonic() + PATIENCE
        while True:
            reply = self.answer(json.dumps(event))
            if reply.get("refused") not in (NO_TOKEN, REDS_MISSING) or time.monotonic() > until:
                return reply
            for to in self.outboxes if reply["refused"] == NO_TOKEN else []:
                post(self.ports[to], f"/token/{self.me}")
            time.sleep(0.05)

    def request(self, body, asked, word, *more):
        if word == "message":
            return self.answer(body)
        if word == "token":
            return self.answer(json.dumps({"pass": int(more[0])})) if time.monotonic() > self.taken + HOLD else None
        return self.ask(EVENTS[word](self.name, *more) | ({"id": asked} if asked else {}))


class Handler(http.server.BaseHTTPRequestHandler):
    """HTTP around a store. Nothing is logged: the journal has it all."""

    def do_POST(self):
        body = self.rfile.read(int(self.headers.get("Content-Length", 0)))
        path, _, asked = self.path.partition("?id=")
        try:
            status, reply = 200, self.server.store.request(body, asked, *path.strip("/").split("/"))
        except (KeyError, TypeError, ValueError):
            status, reply = 400, None
        try:
            self.send_response(status)
            self.end_headers()
            self.wfile.write(json.dumps(reply).encode())
        except ConnectionError:
            pass  # who asked is gone; what was answered is in the journal

    do_GET, log_message = do_POST, lambda *_: None


def main():
    reader = argparse.ArgumentParser(description=__doc__, formatter_class=argparse.RawDescriptionHelpFormatter)
    reader.add_argument("name", choices=STORES)
    reader.add_argument("--ports", required=True, type=lambda text: [int(port) for port in text.split(",")])
    reader.add_argument("--journal", required=True)
    asked = reader.parse_args()
    server = http.server.ThreadingHTTPServer(("127.0.0.1", asked.ports[STORES.index(asked.name)]), Handler)
    server.store = Store(asked.name, asked.ports, asked.journal)
    server.serve_forever()


if __name__ == "__main__":
    main()
