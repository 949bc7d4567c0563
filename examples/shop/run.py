#!/usr/bin/env python3
"""Runs the shop: three stores, three clients, each store killed once in mid-run and started again, and an audit of what
really happened.

usage: run.py [--quiet] [--seed N] [--requests N]

Every request that a store answered has to be in its journal. In the end all stores have to know the same stock, no
less than nothing, and it has to be what came in, less what was sold, by the order that the audit finds.
"""
import argparse
import collections
import json
import os
import random
import signal
import socket
import subprocess
import sys
import tempfile
import threading
import time

sys.dont_write_bytecode = True
import store
from store import ARTICLES, STORES, post, rbbank

HERE = os.path.dirname(os.path.abspath(__file__))
PATIENCE = 60  # seconds for a store to start, and for all of them to know the same


class Failed(Exception):
    """What the shop did that it may not do."""


def free_ports(count):
    sockets = [socket.socket() for _ in range(count)]
    for each in sockets:
        each.bind(("127.0.0.1", 0))
    ports = [each.getsockname()[1] for each in sockets]
    for each in sockets:
        each.close()
    return ports


def until(what, fact):
    """Waits for a fact."""
    end = time.monotonic() + PATIENCE
    while not fact():
        if time.monotonic() > end:
            raise Failed(f"not in {PATIENCE} s: {what}")
        time.sleep(0.05)


class Shop:
    """The stores as processes, each with its journal in a folder."""

    def __init__(self, folder, seed):
        self.folder, self.seed, self.ports = folder, seed, free_ports(len(STORES))
        self.processes, self.answered, self.lock = {}, [], threading.Lock()
        self.count, self.again = 0, 0  # requests, and how often one of them was asked again

    def journal(self, name):
        return os.path.join(self.folder, name + ".journal")

    def port(self, name):
        return self.ports[STORES.index(name)]

    def start(self, name):
        words = [sys.executable, os.path.join(HERE, "store.py"), name, "--ports", ",".join(map(str, self.ports)),
                 "--journal", self.journal(name)]
        self.processes[name] = subprocess.Popen(words)
        until(f"{name} starts", lambda: self.stock(name, "tea", name) is not None)

    def end(self, name, number):
        process = self.processes.pop(name)
        process.send_signal(number)
        process.wait()

    def stock(self, name, article, at):
        """How many pieces a store says that another has, or None."""
        return (post(self.port(name), f"/stock/{article}/{at}") or {}).get("balance")

    def ask(self, name, path):
        """A client's request, by an id of its own: it is asked again, at the same store, until it is answered."""
        with self.lock:
            self.count += 1
            asked = f"{name}-{self.count}"
        while (reply := post(self.port(name), f"{path}?id={asked}")) is None:
            until(f"{name} is back", lambda: self.stock(name, "tea", name) is not None)
            with self.lock:
                self.again += 1
        with self.lock:
            self.answered.append((name, path, asked, reply))
        return reply

    def client(self, name, requests):
        """Buys, gives back, moves and restocks at a store."""
        pick, sales = random.Random(f"{self.seed} {name}"), []
        for _ in range(requests):
            what, article, count = pick.randrange(10), pick.choice(ARTICLES), pick.randrange(1, 6)
            if what < 5:
                reply = self.ask(name, f"/sell/{article}/{count}")
                sales += [reply["name"]] if reply.get("kind") == "withdraw" else []
            elif what < 7 and sales:
                self.ask(name, f"/give-back/{sales.pop(pick.randrange(len(sales)))}")
            elif what < 9:
                self.ask(name, f"/move/{article}/{count}/{pick.choice([to for to in STORES if to != name])}")
            else:
                self.ask(name, f"/restock/{article}/{count}")

    def run(self, requests):
        """Each client in a thread, and each store killed once while they ask."""
        for name in STORES:
            self.start(name)
            for article in ARTICLES:
                self.ask(name, f"/restock/{article}/30")
        clients = [threading.Thread(target=self.client, args=[name, requests]) for name in STORES]
        for each in clients:
            each.start()
        for part, name in enumerate(STORES, 1):
            wanted = part * requests * len(STORES) // (len(STORES) + 1)
            until("clients get on", lambda: len(self.answered) >= wanted)
            self.end(name, signal.SIGKILL)
            time.sleep(0.2)
            self.start(name)
        for each in clients:
            each.join()

    def stocks(self):
        """What each store says of every account."""
        return [[self.stock(name, article, at) for article in ARTICLES for at in STORES] for name in STORES]

    def settled(self):
        """Whether all stores know the same, and did so a moment ago."""
        before = self.stocks()
        time.sleep(0.3)
        return before == self.stocks() and None not in before[0] and all(each == before[0] for each in before)


def entries_of(journals):
    """The entries of each site, in its order."""
    return [[json.loads(line) for line in journal.splitlines()[1:]] for journal in journals]


def in_order(journals):
    """The entries in the order that an audit finds."""
    audit = rbbank.audit(b"".join([journals[0], *(journal.split(b"\n", 1)[1] for journal in journals[1:])]))
    if not audit.certified:
        raise Failed(f"the audit: {audit.line}")
    left = [iter(entries) for entries in entries_of(journals)]
    return [next(left[site]) for site in json.loads(audit.line)["order"]]


def is_kept(shop, entries):
    """What each client was answered is in its store's journal: one entry if it was made, else none of its id."""
    kept = collections.defaultdict(list)
    for entry in entries:
        kept[entry["site"], entry.get("id")].append([entry["event"], entry["reply"]])
    for name, path, asked, reply in shop.answered:
        word, *more = path.strip("/").split("/")
        made = [] if "refused" in reply else [[store.EVENTS[word](name, *more), reply]]
        found = kept[STORES.index(name), asked]
        if found != made:
            raise Failed(f"{name} answered {path} by {reply}, and its journal has {found}")


def counted(entries):
    """What came in, was sold, given back and moved, by the order of the audit: the stock of each account."""
    stock, made, cancelled = collections.Counter(), {}, set()
    for entry in entries:
        event, reply = entry["event"], entry["reply"]
        if "deposit" in event and reply.get("kind") == "deposit":
            made[reply["name"]] = [(event["deposit"][0], event["deposit"][1])]
        elif "withdraw" in event and reply.get("kind") == "withdraw":
            made[reply["name"]] = [(event["withdraw"][0], -event["withdraw"][1])]
        elif "transfer" in event and reply.get("kind") == "transfer":
            left, to, count = event["transfer"]
            made[reply["name"]] = [(left, -count), (to, count)]
        elif "cancel" in event and reply.get("kind") == "cancel":
            cancelled.add(event["cancel"])
    for name, moved in made.items():
        for account, count in moved if name not in cancelled else []:
            stock[account] += count
    return stock, len(made), len(cancelled)


def played(requests, seed):
    """A run of the shop: what was asked, what the stores know in the end, and their journals."""
    with tempfile.TemporaryDirectory() as folder:
        shop = Shop(folder, seed)
        try:
            shop.run(requests)
            until("all stores know the same", shop.settled)
            known = shop.stocks()[0]
        finally:
            for name in list(shop.processes):
                shop.end(name, signal.SIGTERM)
        journals = []
        for name in STORES:
            with open(shop.journal(name), "rb") as file:
                journals.append(file.read())
    return shop, known, journals


def main():
    reader = argparse.ArgumentParser(description=__doc__, formatter_class=argparse.RawDescriptionHelpFormatter)
    reader.add_argument("--quiet", action="store_true", help="print only what is wrong")
    reader.add_argument("--seed", type=int, default=1)
    reader.add_argument("--requests", type=int, default=60, help="of each client")
    asked = reader.parse_args()
    shop, known, journals = played(asked.requests, asked.seed)
    entries = in_order(journals)
    is_kept(shop, entries)
    stock, made, cancelled = counted(entries)
    accounts = [f"{article}.{at}" for article in ARTICLES for at in STORES]
    if known != [stock[account] for account in accounts] or min(known) < 0:
        raise Failed(f"the stores know {known} and not {[stock[account] for account in accounts]}")
    if made < len(STORES) * len(ARTICLES) or len(shop.answered) < asked.requests or cancelled == 0:
        raise Failed(f"only {made} operations by {len(shop.answered)} requests, {cancelled} taken back")
    if not asked.quiet:
        print(f"{len(shop.answered)} requests answered, asked again {shop.again} times; each store was killed once")
        print(f"{len(entries)} entries in one order: {made} sales, moves and restocks, {cancelled} of them taken back")
        print("  ".join(f"{account} {count}" for account, count in zip(accounts, known)))
    return 0


if __name__ == "__main__":
    try:
        sys.exit(main())
    except Failed as why:
        sys.exit(f"shop: {why}")
