#!/usr/bin/env python3
"""Closes the books of a bank of services, and has them begin the next period.

usage: close.py BANK NAME FOLDER [--account NAME].. [--patience SECONDS] [--open]

BANK is the services' bank.json, NAME the period that is closed, as `example.0001`; accounts are added with 0. Clients
are told to wait. Once all sites applied the same, copies of their journals are closed, to see that they can be. Then
the journals are sealed, and `rbbank close` says the next period's first line, with which the services go on. FOLDER has
the period's journals then, to be archived, and that line. Whenever it is ended, it can be run again: if a site has
begun the next period by then, the others begin it with the same line. If the books can't be closed, clients are served
again, and it says why, in status 1; with --open that is all it does.
"""
import argparse
import http.client
import json
import os
import subprocess
import sys
import time

from site_child import Json, Period, compact, load, store

PAUSE = 0.3  # seconds before a service is asked again
OPENS = 60  # seconds to have clients served again


class Books:
    """It ends by SystemExit if the books can't be closed."""

    def __init__(self, asked: argparse.Namespace) -> None:
        self.bank: Json = load(asked.bank)
        self.sites = range(len(self.bank["http"]))
        name, _, number = asked.name.rpartition(".")
        self.period, self.until = Period(asked.folder, name, int(number)), time.monotonic() + asked.patience
        self.words = [word for name in asked.account for word in ("--account", name)]
        self.heads = {"Connection": "close", "Content-Type": "application/json"}
        self.said = set[str]()  # what it said that it waits for
        if path := self.bank.get("tokens"):
            if not (tokens := [row["token"] for row in load(path).values() if "close" in row["may"]]):
                sys.exit(f"close: {path} has no token that may close")
            self.heads["Authorization"] = f"Bearer {tokens[0]}"

    def ask(self, site: int, path: str, body: str | None = None) -> bytes:
        """What a service answers; it is asked until it does, or no time is left."""
        while True:
            try:
                service = http.client.HTTPConnection(self.bank["http"][site], timeout=30)
                service.request("POST" if body else "GET", path, body, self.heads)
                reply = service.getresponse()
                said = reply.read()
                if reply.status == 200:
                    return said
                why = f"{reply.status} {said.decode(errors='replace')}"
                if reply.status in (401, 403):
                    sys.exit(f"close: site {site}: {why}")  # (no time lets a client do what it may not)
            except (OSError, http.client.HTTPException) as fault:
                why = repr(fault)
            self.wait(f"site {site}: {why}")

    def wait(self, why: str) -> None:
        """Waits for a moment before something is tried again, and says once why; if no time is left, it ends so."""
        if time.monotonic() > self.until:
            sys.exit(f"close: {why}")
        if (what := why.partition(":")[0]) not in self.said:
            self.said.add(what)
            print(f"close: waits: {why}", file=sys.stderr, flush=True)
        time.sleep(PAUSE)

    def all(self, step: str, line: Json | None = None) -> list[Json]:
        """Has the sites do a step, one after another: what they say. If a site has begun the next period, each behind
        it is given the line that it began with. So the first one decides, whatever else was on its way to a site."""
        found: list[Json] = []
        for site in self.sites:
            asked = compact({"bank": self.period.name, "line": line, "step": step})
            found.append(json.loads(self.ask(site, "/closing", asked)))
            line = found[-1].get("line", line)
        return found

    def line(self, end: str) -> Json:
        """The next period's first line, by the journals; or by copies, which are sealed here and then deleted."""
        paths = [self.period.journal(site) + end for site in self.sites]
        for site, path in enumerate(paths):
            journal = self.ask(site, f"/journals/{os.path.basename(self.period.journal(site))}")
            store(path, journal[:-1] + b"\t" if end else journal)
        run = subprocess.run([self.bank["program"], "close", *self.words, *paths], capture_output=True, text=True)
        for path in paths if end else []:
            os.unlink(path)
        if run.returncode:
            sys.exit(f"close: {(run.stdout or run.stderr).strip()}")
        return dict(json.loads(run.stdout))

    def rest(self) -> None:
        """Stops all clients, until the sites applied the same, and copies of their journals can be closed."""
        while (now := self.all("stop")) and all(said["is"] == "stopped" for said in now):  # (else this is done)
            if all(said == now[0] for said in now):
                return print("The books can be closed:", json.dumps(self.line(".copy")["accounts"]))
            self.wait(f"the sites haven't applied the same: {now}")
        return None

    def open(self) -> None:
        self.until = time.monotonic() + OPENS
        self.all("open")

    def close(self) -> None:
        try:
            self.rest()
        except SystemExit:
            self.open()
            raise
        self.until = float("inf")
        self.all("seal")
        line = self.all("next", self.line(""))[0]["line"]
        self.period.other(1).keep("bank", line)
        print(f"{self.period.name} is closed; the next period begins with {json.dumps(line['accounts'])}.")


def main() -> None:
    reader = argparse.ArgumentParser(description=__doc__, formatter_class=argparse.RawDescriptionHelpFormatter)
    for name in "bank", "name", "folder":
        reader.add_argument(name, metavar=name.upper())
    reader.add_argument("--account", action="append", default=[], help="an account that is added")
    reader.add_argument("--patience", type=float, default=120, help="seconds for clients to wait before the seal")
    reader.add_argument("--open", action="store_true", help="serve clients again, after an end in the middle")
    asked = reader.parse_args()
    os.makedirs(asked.folder, exist_ok=True)
    books = Books(asked)
    (books.open if asked.open else books.close)()


if __name__ == "__main__":
    main()
