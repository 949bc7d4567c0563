#!/usr/bin/env python3
"""Kills the parts of a bank of services at random while clients work, and checks that nothing is lost or done twice.

usage: chaos.py PROGRAM [--seconds 60] [--seed N | --seeds N] [--inbox N] [--slow MICROSECONDS] ..

Three nodes of RabbitMQ, three services, their children. Children and services are ended by SIGKILL, or stopped for a
while so that queues grow, and the nodes are ended one at a time. If this is root, the network between a service and the
nodes is cut for a while, and one site's disk is full for a while (faults.py). The bank lasts for some periods; its
books are closed while all this goes on. Clients ask all the while, each request by a key of its own, and again by that
key, at once or twice at a time, until it is answered. Then all is started, what is on its way comes in, and these have
to hold:

- each request that a client was told of is in the journals of its site exactly once, over all periods, with the very
  reply that the client got; a request that was refused is in none, nor is anything that nobody asked for
- one that is asked again by its key gets the same reply
- in each period all sites applied the same operations, and each account has what the clients' replies come to
- `rbbank audit` orders the journals of each period, and the next begins with its balances
- the services end in status 0 when they are asked to

It prints its seed and what happened. The same seed makes the same choices; no two runs kill at the same moment.
"""
from __future__ import annotations

import argparse
import asyncio
import json
import os
import random
import shutil
import signal
import subprocess
import sys
import tempfile
import time
from collections import Counter
from concurrent.futures import ThreadPoolExecutor
from typing import Any

sys.dont_write_bytecode = True
import cluster
from bank import COMMANDS, REQUESTS, command, fields
from client import Client, Denied
from faults import Disk, Net, slow_disk
from site_child import Json, compact
from view import BESIDE

ACCOUNTS = ("ann", "bob", "eve", "fund.a", "fund.b")
SHARES = {"deposit": 8, "withdraw": 5, "transfer": 3, "cancel": 4}  # of the requests; of each other kind, 1
TARGETS = ("child", "child", "service", "both", "stop")


class Wrong(Exception):
    """What may not be."""


def names_of(reply: Json) -> list[str]:
    return [reply["name"]] if "kind" in reply else reply.get("names", [])


class Told:
    """A request that a client was answered: its event, the reply, and the bank that it was made in."""

    def __init__(self, site: int, event: Json) -> None:
        self.site, self.event = site, event
        self.reply: Json = {}


class Run:
    def __init__(self, bank: cluster.Bank, broker: cluster.Cluster, asked: argparse.Namespace, seed: int) -> None:
        self.bank, self.broker, self.asked, self.pick = bank, broker, asked, random.Random(seed)
        self.count: Counter[str] = Counter()
        self.told: dict[str, Told] = {}  # by key
        self.number, self.slowest, self.period, self.is_over = 1000, 0.0, 1, False
        self.nets = [net for net in map(Net, range(bank.sites)) if net.is_made]
        self.relays: list[asyncio.AbstractServer] = []
        self.disk = Disk(os.path.join(bank.folder, f"site{self.pick.randrange(bank.sites)}"))

    @property
    def name(self) -> str:
        return f"{self.bank.bank['name']}.{self.period:04}"

    # ---- clients

    def request(self, mine: list[str]) -> Json:
        """A request of a client, which cancels operations that it made in this period."""
        self.number += 1
        pick, account = self.pick, self.pick.choice(ACCOUNTS)
        verb = pick.choices([*REQUESTS, "batch"], [SHARES.get(verb, 1) for verb in (*REQUESTS, "batch")])[0]
        if verb == "cancel" and mine:
            return {"bank": self.name, "cancel": mine.pop(pick.randrange(len(mine)))}
        if verb == "batch":
            return {"batch": [{"deposit": [account, self.number]}, {"withdraw": [account, self.number - 1]}]}
        values = {"account": account, "to": pick.choice([name for name in ACCOUNTS if name != account]),
                  "cents": self.number, "rate": pick.randrange(100)}
        return command(verb if verb != "cancel" else "deposit", values)

    async def asks(self, site: int, event: Any, key: str | None, tries: list[float] | None = None) -> Any:
        """Asks until there is a reply, as client.py does. `tries` gets when the last one began."""
        begun, client = time.monotonic(), self.to(site)
        try:
            reply = await asyncio.to_thread(client.ask, event, key)
        except (Denied, TimeoutError) as why:
            raise Wrong(f"site {site}, {event}: {why}") from None
        finally:
            client.patience = 0
            self.count += Counter({"told to wait": client.waits, "replies lost": client.lost})
        if isinstance(reply, dict) and reply.get("refused") in (1, 25):
            raise Wrong(f"site {site}, {event}: {reply}")
        if tries is not None:
            tries.append(client.began)
        self.slowest = max(self.slowest, time.monotonic() - begun)
        return reply

    def to(self, site: int, patience: float | None = None) -> Client:
        return Client(f"http://{self.bank.http[site]}", patience=self.asked.patience if patience is None else patience,
                      timeout=self.asked.timeout, pause=self.pick.choice([0.02, 0.02, 0.1]))

    async def once(self, site: int, event: Json, key: str) -> Json:
        """A request by its key, at times twice at a time: one may be refused before the other one is made."""
        self.told[key] = told = Told(site, event)
        if self.pick.random() >= 0.05:
            told.reply = await self.asks(site, event, key)
            return told.reply

        async def one() -> tuple[Json, float, float]:
            tries: list[float] = []
            return await self.asks(site, event, key, tries), tries[-1], time.monotonic()

        both = await asyncio.gather(one(), one())
        (told.reply, _, came), (other, begun, _) = sorted(both, key=lambda each: not names_of(each[0]))
        if names_of(other):
            self.same(key, told.reply, other)
        elif names_of(told.reply):
            if begun > came:
                raise Wrong(f"{key}: {event} was answered {told.reply}, and asked after that {other}")
            await self.again(key)
        return told.reply

    def same(self, key: str, first: Json, second: Json) -> None:
        """A request that was made has one reply."""
        if names_of(first) and without(first) != without(second):
            raise Wrong(f"{key}: {self.told[key].event} was answered {first}, and then {second}")
        self.count["asked twice"] += 1

    async def again(self, key: str) -> None:
        """Asks once more what was made before, unless its period isn't the last or the one before."""
        told = self.told[key]
        period = self.period
        reply = await self.asks(told.site, told.event, key)
        if period == self.period:
            self.same(key, told.reply, reply)

    async def client(self, number: int) -> None:
        mine: list[str] = []
        made: list[str] = []
        home, period = number % self.bank.sites, self.period
        while not self.is_over:
            if period != self.period:
                period, mine, made = self.period, [], []
            self.number += 1
            chance, key = self.pick.random(), f"c{number}-{self.number}"
            if chance < 0.1:
                await self.asks(home, {"balance": self.pick.choice(ACCOUNTS)}, None)
            elif chance < 0.2 and made:
                await self.again(self.pick.choice(made[-50:]))
            elif chance < 0.25:
                await self.several(home, key)
            elif chance < 0.26:
                await self.asks(home, {"pass": (home + 1) % self.bank.sites}, None)
            else:
                reply = await self.once(home, self.request(mine), key)
                if names_of(reply) and period == self.period and "bank" not in reply:
                    mine, made = mine + names_of(reply), made + [key]
            await asyncio.sleep(self.pick.random() * 0.02)

    async def several(self, site: int, key: str) -> None:
        """Some requests at once, in a list."""
        events: list[Json] = [{"deposit": [self.pick.choice(ACCOUNTS), 1 + n], "id": f"{key}.{n}"} for n in range(3)]
        for told in (asked := [Told(site, event) for event in events]):
            self.told[told.event["id"]] = told
        for told, reply in zip(asked, await self.asks(site, events, None)):
            told.reply = reply

    # ---- kills

    async def breaks(self, until: float) -> None:
        """Ends one part after another; mostly of a site that works again, at times of one that only starts."""
        while time.monotonic() < until:
            await asyncio.sleep(self.pick.random() * 2 * self.asked.pause)
            site, what = self.pick.randrange(self.bank.sites), self.pick.choice(TARGETS)
            process = self.bank.running[site]
            assert process
            if process.poll() is not None:
                raise Wrong(f"the service of site {site} ended by itself in {process.returncode}")
            if self.pick.random() < 0.7 and not await self.works(site):
                continue
            if what == "stop":
                await self.stops(process)
                continue
            child = self.bank.child(site)
            if what != "service" and child is not None:
                os.kill(child, signal.SIGKILL)
                self.count["children"] += 1
            if what != "child":
                process.kill()
                process.wait()
                self.count["services"] += 1
                await asyncio.sleep(self.pick.choice([0, 0, self.pick.random()]))
                self.bank.start(site)

    async def stops(self, process: subprocess.Popen[bytes]) -> None:
        """Holds a service for a while: what is for it waits in the queues."""
        process.send_signal(signal.SIGSTOP)
        try:
            await asyncio.sleep(self.pick.random() * 3)
        finally:
            process.send_signal(signal.SIGCONT)
        self.count["held"] += 1

    async def works(self, site: int) -> bool:
        try:
            return bool((await self.get(site, "/health"))["up"])
        except OSError:
            return False

    async def breaks_broker(self, until: float) -> None:
        """Ends one node after another; the next once the one before takes clients again."""
        while time.monotonic() + 5 < until:
            await asyncio.sleep(self.pick.random() * 3)
            node = self.pick.randrange(cluster.NODES)
            self.broker.kill(node)
            self.count["nodes"] += 1
            await asyncio.sleep(self.pick.random() * 4)
            self.broker.start(node)
            await asyncio.to_thread(self.broker.wait, node)

    async def cuts(self, until: float) -> None:
        """Cuts a service off from all nodes, at times until neither side takes the other for connected."""
        while self.nets and time.monotonic() + 5 < until:
            await asyncio.sleep(self.pick.random() * 8)
            net = self.pick.choice(self.nets)
            net.link("down")
            try:
                await asyncio.sleep(self.pick.choice([1, 3, 15]))
            finally:
                net.link("up")
            self.count["cut off"] += 1

    async def fills(self, until: float) -> None:
        """Fills a site's disk for a while."""
        while self.disk.is_made and time.monotonic() + 5 < until:
            await asyncio.sleep(self.pick.random() * 10)
            self.disk.fill()
            try:
                await asyncio.sleep(self.pick.random() * 5)
            finally:
                self.disk.empty()
            self.count["full"] += 1

    async def starts(self) -> None:
        """Starts the services, each by its way to the nodes."""
        ports = [self.broker.base + node for node in range(cluster.NODES)]
        for site, net in enumerate(self.nets):
            self.bank.files[site] = self.bank.write(f"bank{site}.json", broker=self.broker.urls(net.host))
            self.relays += await net.carry(ports)
        for site in range(self.bank.sites):
            self.bank.start(site)
        for site in range(self.bank.sites):
            await asyncio.to_thread(self.bank.wait, site, self.asked.patience)

    async def closes(self) -> None:
        """Has the books closed, by close.py, which is killed at times, until they are."""
        until, archive = time.monotonic() + self.asked.patience, os.path.join(self.bank.folder, "archive")
        words = [sys.executable, f"{cluster.HERE}/close.py", self.bank.file, self.name, archive, "--patience", "20"]
        while time.monotonic() < until:
            account = f"new-{self.period}-{self.pick.randrange(3)}"  # by other words, at times
            with open(os.path.join(self.bank.folder, "close.log"), "ab") as out:
                process = subprocess.Popen([*words, "--account", account], stdout=out, stderr=out)
            left = self.pick.choice([0.5, 2, 1000])
            try:
                while process.poll() is None and left > 0:
                    await asyncio.sleep(0.1)
                    left -= 0.1
            finally:
                process.kill()
            if process.wait() == 0:
                self.period += 1
                return
            self.count["closings killed" if process.returncode < 0 else "closings given up"] += 1
            await asyncio.sleep(self.pick.random() * 4)
        raise Wrong(f"{self.name} wasn't closed in {self.asked.patience} s: {await self.everyone()}")

    # ---- the end

    async def get(self, site: int, path: str) -> Any:
        return await asyncio.to_thread(self.to(site, 0).get, path)

    async def everyone(self) -> list[Any]:
        found = await asyncio.gather(*(self.get(site, "/health") for site in range(self.bank.sites)),
                                     return_exceptions=True)
        return [each if isinstance(each, dict) else repr(each) for each in found]

    async def drains(self) -> None:
        """Waits until nothing is on its way."""
        until, quiet, before, now = time.monotonic() + self.asked.patience, 0, [0], await self.everyone()
        while quiet < 3:
            if time.monotonic() > until:
                queues = self.broker.ctl(0, "list_queues", "name", "leader", "online", "messages_ready",
                                         "messages_unacknowledged", "consumers", "active_consumer_pid")
                raise Wrong(f"in {self.asked.patience} s not all has come: {now}\n{queues.stdout}{queues.stderr}")
            await asyncio.sleep(0.7)
            now = await self.everyone()
            if any(isinstance(each, str) for each in now):
                continue
            left = any(each[part] for each in now for part in ("waiting", "unsent", "held", "behind"))
            ready = all(each["up"] and each["broker"] and each["bank"] == self.name for each in now)
            applied = [each["applied"] for each in now]
            quiet = quiet + 1 if ready and not left and applied == before and len(set(applied)) == 1 else 0
            before = applied

    async def compare(self) -> Json:
        """The balances that each site answers, and shows: they have to be the same."""
        found = []
        for site in range(self.bank.sites):
            state = await self.get(site, "/state")
            asked = {name: (await self.get(site, f"/balance/{name}"))["balance"] for name in state["balances"]}
            if state["balances"] != asked:
                raise Wrong(f"the service of site {site} shows {state['balances']}; the site has {asked}")
            found.append(asked)
        if any(each != found[0] for each in found):
            raise Wrong(f"the sites have different balances: {found}")
        return found[0]

    def ends(self) -> None:
        """An orderly end of the services."""
        for process in self.bank.running:
            assert process
            process.terminate()
        for site, process in enumerate(self.bank.running):
            if process and process.wait(self.asked.patience) != 0:
                raise Wrong(f"the service of site {site} ended in {process.returncode}")


class Books:
    """The journals of one period, beside what clients were told."""

    def __init__(self, run: Run, period: int) -> None:
        self.run, self.period = run, period
        self.paths = [os.path.join(run.bank.folder, f"site{site}", f"{period:04}.{site}.journal")
                      for site in range(run.bank.sites)]
        self.entries: list[list[Json]] = []
        for path in self.paths:
            with open(path) as file:
                config, *entries = [json.loads(line) for line in file if line.startswith("{")]
            self.config: Json = config if path == self.paths[0] else self.config
            if self.config != config:
                raise Wrong(f"the sites began period {period} with {self.config} and {config}")
            self.entries.append(entries)

    def requests(self) -> dict[str, tuple[int, Json]]:
        """The requests that were made, by their keys: each has one entry, and no other entry has an operation."""
        found: dict[str, tuple[int, Json]] = {}
        for site, entries in enumerate(self.entries):
            for entry in entries:
                if "id" in entry and found.setdefault(entry["id"], (site, entry)) != (site, entry):
                    raise Wrong(f"{entry['id']} is in the journals twice, in period {self.period}")
                if "id" not in entry and names_of(entry["reply"]):
                    raise Wrong(f"site {site} made what nobody asked for: {entry}")
        return found

    def applied(self) -> int:
        """How many operations the sites applied, which are the same at all of them."""
        found = [sorted(name for entry in entries for name in [entry["reply"].get("applied"), *names_of(entry["reply"])]
                        if name) for entries in self.entries]
        if any(each != found[0] for each in found) or len(set(found[0])) != len(found[0]):
            raise Wrong(f"the sites applied different operations in period {self.period}")
        return len(found[0])

    def balances(self, made: list[tuple[Json, Json]]) -> dict[str, int]:
        """What each account has by requests and replies. What a rate came to is in the messages to other sites."""
        shadows = {entry["event"]["shadow"]["name"]: entry["event"]["shadow"]
                   for entries in self.entries for entry in entries if "shadow" in entry["event"]}
        done: dict[str, Json] = {}
        for event, reply in made:
            parts = event["batch"] if "batch" in event else [event]
            done |= {name: part for name, part in zip(names_of(reply), parts) if reply.get("kind") != "declined"}
        undone = {part["cancel"] for part in done.values() if "cancel" in part}
        found: dict[str, int] = dict(self.config["accounts"])
        for name, part in done.items():
            verb, given = next((verb, fields({verb: part[verb]})) for verb in part if verb not in BESIDE)
            if name not in undone and verb != "cancel":
                moved = COMMANDS[verb]["moves"] * (given["cents"] if "cents" in given else shadows[name]["amount"])
                found[given["account"]] += moved
                if "to" in given:
                    found[given["to"]] -= moved
        return found

    def audit(self, program: str) -> int:
        """Has an audit order the journals."""
        run = subprocess.run([program, "audit", *self.paths], capture_output=True)
        entries = sum(map(len, self.entries))
        if run.returncode or len(json.loads(run.stdout).get("order", [])) != entries:
            raise Wrong(f"the audit of {self.paths} says {run.stdout[:300].decode()} {run.stderr.decode()}")
        return entries


def look(run: Run, balances: Json) -> tuple[int, int]:
    """Compares the journals of all periods with what clients were told. Counts operations and entries."""
    books = [Books(run, period) for period in range(1, run.period + 1)]
    there: dict[str, tuple[int, Json]] = {}
    operations = entries = 0
    for period, book in enumerate(books, 1):
        requests = book.requests()
        if twice := there.keys() & requests.keys():
            raise Wrong(f"made in two periods: {sorted(twice)[:5]}")
        there |= requests
        made = []
        for key, (site, entry) in requests.items():
            told = run.told.get(key)
            if told is None or told.site != site or without(told.event) != entry["event"]:
                raise Wrong(f"site {site} made what nobody asked for: {key} {entry}")
            if without(told.reply) != entry["reply"]:
                raise Wrong(f"{key}: the client was told {told.reply}, and the journal has {entry}")
            made.append((told.event, told.reply))
        wanted = dict(books[period].config["accounts"]) if period < len(books) else balances
        if book.balances(made) | {name: 0 for name in wanted.keys() - dict(book.config["accounts"]).keys()} != wanted:
            raise Wrong(f"period {period} ends with {wanted}, and by clients' replies with {book.balances(made)}")
        operations, entries = operations + book.applied(), entries + book.audit(run.asked.program)
    lost = [key for key, told in run.told.items() if names_of(told.reply) and key not in there]
    if lost:
        raise Wrong(f"told and in no journal: {[(key, run.told[key].reply) for key in lost[:3]]}")
    return operations, entries


def look_logs(bank: cluster.Bank) -> None:
    """No site has refused what another sent."""
    for site in range(bank.sites):
        with open(os.path.join(bank.folder, f"{site}.log")) as file:
            for line in file:
                if "doesn't take" in line:
                    raise Wrong(f"the log of site {site}: {line}")


def without(value: Json) -> Json:
    return {key: it for key, it in value.items() if key not in BESIDE}


async def happens(run: Run) -> tuple[Json, float]:
    """A whole run. The balances at its end, and the seconds until all had come."""
    asked = run.asked
    asyncio.get_running_loop().set_default_executor(ThreadPoolExecutor(3 * asked.clients))
    await run.starts()
    begun = time.monotonic()
    until = begun + asked.seconds
    clients = [asyncio.create_task(run.client(number)) for number in range(asked.clients)]
    kills = [asyncio.create_task(run.breaks(until)), asyncio.create_task(run.breaks_broker(until)),
             asyncio.create_task(run.cuts(until)), asyncio.create_task(run.fills(until)),
             asyncio.create_task(periods(run, begun))]
    try:
        while not all(kill.done() for kill in kills):
            done, _ = await asyncio.wait(clients + kills, timeout=1, return_when=asyncio.FIRST_EXCEPTION)
            for task in done:
                task.result()
        run.is_over = True
        await asyncio.wait_for(asyncio.gather(*clients), asked.patience)
    finally:
        for task in clients + kills:
            task.cancel()
        await asyncio.gather(*clients, *kills, return_exceptions=True)
    begun = time.monotonic()
    await run.drains()
    drained, balances = time.monotonic() - begun, await run.compare()
    run.ends()
    return balances, drained


async def periods(run: Run, begun: float) -> None:
    """Has the books closed, at equal times."""
    for period in range(1, run.asked.periods):
        await asyncio.sleep(max(0, begun + run.asked.seconds * period / run.asked.periods - time.monotonic()))
        await run.closes()


def tried(asked: argparse.Namespace, seed: int, folder: str) -> str:
    """A run of this seed, in words."""
    pick = random.Random(seed)
    inbox, slow = asked.inbox or pick.choice([2, 4, 4096]), pick.choice([0, 0, 5000])
    slow = (slow if shutil.which("cc") else 0) if asked.slow is None else asked.slow
    os.environ.pop("LD_PRELOAD", None)
    if slow:
        slow_disk(folder, slow)
    broker = cluster.Cluster(os.path.join(folder, "broker"), asked.patience)
    keys = {"accounts": [[name, 10_000] for name in ACCOUNTS], "inbox": inbox}
    bank = cluster.Bank(asked.program, folder, broker, **keys)
    run = Run(bank, broker, asked, seed)
    try:
        broker.start_all()
        balances, drained = asyncio.run(happens(run))
    finally:
        bank.stop()
        broker.stop()
        for part in (*run.nets, run.disk):
            part.end()
    look_logs(bank)
    what = f"seed {seed}, inbox {inbox}" + (f", each wait for the disk {slow} us longer" if slow else "")
    return said(run, balances, drained, *look(run, balances), what)


def said(run: Run, balances: Json, drained: float, operations: int, entries: int, what: str) -> str:
    """What happened in a run, in words."""
    count = run.count
    return (f"{what}: {len(run.told):,} requests of {run.asked.clients} clients in {run.period} periods,"
            f" each in the journals once, as it was answered\n"
            f"  {count['children']} children, {count['services']} services and {count['nodes']} nodes of the broker"
            f" killed, {count['held']} services held, {count['cut off']} cut off from the nodes,"
            f" a disk full {count['full']} times; {count['closings killed']} closings killed,"
            f" {count['closings given up']} given up\n"
            f"  {count['replies lost']:,} replies lost, {count['told to wait']:,} clients sent away to wait,"
            f" {count['asked twice']:,} asked twice; the longest wait {run.slowest:.1f} s\n"
            f"  drained in {drained:.1f} s; all sites have {compact(balances)}\n"
            f"  after {operations:,} operations; the audits order {entries:,} entries")


def options() -> argparse.Namespace:
    reader = argparse.ArgumentParser(description=__doc__, formatter_class=argparse.RawDescriptionHelpFormatter)
    reader.add_argument("program", metavar="PROGRAM", help="a built rbbank")
    reader.add_argument("--seconds", type=float, default=60, help="how long clients ask and parts are killed")
    reader.add_argument("--periods", type=int, default=3, help="how many periods of the bank")
    reader.add_argument("--clients", type=int, default=24)
    reader.add_argument("--seed", type=int, help="else by the clock")
    reader.add_argument("--seeds", type=int, default=1, help="how many runs, each with the next seed")
    reader.add_argument("--inbox", type=int, help="a small one lets queues wait; else 2, 4 or 4096 by the seed")
    reader.add_argument("--slow", type=int, help="microseconds that each wait for the disk takes longer; wants cc")
    reader.add_argument("--pause", type=float, default=0.5, help="seconds between two kills, in the mean")
    reader.add_argument("--timeout", type=float, default=5, help="seconds after which a client asks again")
    reader.add_argument("--patience", type=float, default=600, help="seconds in which all has to have come")
    reader.add_argument("--folder", help="where journals and logs stay")
    asked = reader.parse_args()
    if not os.access(asked.program, os.X_OK) or os.path.isdir(asked.program):
        reader.error(f"{asked.program}: no program")
    asked.seed = int(time.time()) % 10**6 if asked.seed is None else asked.seed
    return asked


def main() -> int:
    asked = options()
    cluster.check_packages()
    signal.signal(signal.SIGTERM, signal.default_int_handler)  # what was started is ended
    for seed in range(asked.seed, asked.seed + asked.seeds):
        folder = os.path.join(asked.folder or tempfile.mkdtemp(prefix="chaos-"), str(seed))
        os.makedirs(folder)
        try:
            print(tried(asked, seed, folder), flush=True)
        except (Wrong, RuntimeError, asyncio.TimeoutError) as why:
            print(f"chaos: {why or 'a client has no reply'}\nseed {seed}; see {folder}", flush=True)
            return 1
        if not asked.folder:
            shutil.rmtree(os.path.dirname(folder))
    return 0


if __name__ == "__main__":
    sys.exit(main())
