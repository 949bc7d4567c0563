#!/usr/bin/env python3
"""Measures the service beside the site alone, SQLite and PostgreSQL: durable ledger transactions a second, in one run
and on one disk.

usage: bench.py PROGRAM [--disk FOLDER] [--seconds 5] [--rounds 3] [--only NAME ..]

A transaction adds an operation under an id that is its own, and adds to or takes from one of 1,000 accounts, which may
not fall below zero. It is on the disk before it is answered. All are measured in turn, --rounds times; the best counts.

| Name | What is measured |
|---|---|
| service | `wrk` asks one of three sites by HTTP, a request each, with an Idempotency-Key; three nodes of the broker |
| lists | as service, this number of events a request |
| health | the same, `GET /health`: what HTTP alone costs here |
| alone | as service, but by a site whose broker and other sites are down |
| site | `rbbank site` through two pipes, this number of lines in flight |
| sqlite | in this process, WAL and synchronous=FULL, this number of transactions a commit |
| postgresql | `pgbench` by TCP, prepared and in a pipeline; as many clients, or transactions a commit |

It wants Debian's wrk and postgresql, and what `make service-setup` installs. PostgreSQL runs as the user nobody, if
this is root.
"""
from __future__ import annotations

import argparse
import glob
import itertools
import os
import random
import re
import shutil
import signal
import socket
import sqlite3
import subprocess
import sys
import tempfile
import time
from collections.abc import Callable, Iterator
from typing import NamedTuple

sys.dont_write_bytecode = True
import cluster  # noqa: E402

ACCOUNTS, BEGIN = 1_000, 1_000_000  # accounts, and cents of each
BATCH = 64  # transactions of a larger commit
MADE = 400_000  # lines that are made before a site is measured: making them costs more than reading answers
CLIENTS, LINES = (1, 16, 256), (1, 64, 1_000)
CONFIG = '{"accounts":[' + ",".join(f'["a{n}",{BEGIN}]' for n in range(ACCOUNTS)) + '],"sites":3,"version":1}\n'
TABLES = ("CREATE TABLE accounts (id INTEGER PRIMARY KEY, balance BIGINT NOT NULL CHECK (balance >= 0))",
          "CREATE TABLE operations (id TEXT PRIMARY KEY, account INTEGER NOT NULL, amount BIGINT NOT NULL)")
WRK = """
local threads = 0
function setup(thread) threads = threads + 1; thread:set("me", threads) end
function init() math.randomseed(SEED + me); made = 0 end
local headers = {["Content-Type"] = "application/json"}
local function event()
  return string.format('{"%s":["a%d",%d]}', math.random() < 0.5 and "deposit" or "withdraw", math.random(0, 999),
                       math.random(1, 100))
end
function request()
  made = made + 1
  headers["Idempotency-Key"] = "SEED." .. me .. "." .. made
  local body = event()
  for more = 2, MANY do body = body .. "," .. event() end
  return wrk.format("POST", "/events", headers, MANY > 1 and "[" .. body .. "]" or body)
end
"""
SETS = """
\\set id{n} random(1, 9000000000000000000)
\\set a{n} random(0, 999)
\\set amount{n} random(-100, 100)
"""
DONE = """
INSERT INTO operations VALUES (:id{n}, :a{n}, :amount{n});
UPDATE accounts SET balance = balance + :amount{n} WHERE id = :a{n};
"""


def moves() -> list[tuple[int, int]]:
    """Accounts, and what is added to each or taken from it."""
    pick = random.Random(7)
    return [(pick.randrange(ACCOUNTS), pick.choice((-1, 1)) * pick.randrange(1, 101)) for _ in range(MADE)]


class Site:
    """The program alone, with a window of lines that aren't answered yet."""

    def __init__(self, program: str, folder: str) -> None:
        self.program, self.folder = program, folder
        self.lines = [f'{{"{"deposit" if cents > 0 else "withdraw"}":["a{account}",{abs(cents)}],'
                      f'"id":"order-{number:07}"}}\n'.encode() for number, (account, cents) in enumerate(moves())]

    def measure(self, lines: int, seconds: float) -> float:
        """From the first answer on: the program's start isn't measured. It ends with the lines that were made."""
        journal, events = os.path.join(self.folder, "site.journal"), iter(self.lines)
        if os.path.exists(journal):
            os.remove(journal)
        words = [self.program, "site", "--me", "0", "--journal", journal, "--new"]
        with subprocess.Popen(words, stdin=subprocess.PIPE, stdout=subprocess.PIPE, bufsize=0) as site:
            assert site.stdin and site.stdout
            site.stdin.write(CONFIG.encode() + next(events))
            while not os.read(site.stdout.fileno(), 1 << 20).endswith(b"\n"):
                pass
            ready, answered, begun = list(itertools.islice(events, lines)), 0, time.perf_counter()
            while (taken := time.perf_counter() - begun) < seconds and answered + lines < MADE:
                site.stdin.write(b"".join(ready))
                came = os.read(site.stdout.fileno(), 1 << 20).count(b"\n")
                ready = list(itertools.islice(events, came))
                answered += came
            site.kill()
        return answered / taken


class Sqlite:
    def __init__(self, folder: str) -> None:
        self.numbers, self.moves = itertools.count(), itertools.cycle(moves())
        self.base = sqlite3.connect(os.path.join(folder, "ledger.db"), isolation_level=None)
        self.base.execute("PRAGMA journal_mode=WAL")
        self.base.execute("PRAGMA synchronous=FULL")
        for table in TABLES:
            self.base.execute(table)
        self.base.executemany("INSERT INTO accounts VALUES (?, ?)", [(n, BEGIN) for n in range(ACCOUNTS)])

    def measure(self, batch: int, seconds: float) -> float:
        done, begun = 0, time.perf_counter()
        while (taken := time.perf_counter() - begun) < seconds:
            rows = [(f"order-{number:07}", *move) for number, move in
                    zip(itertools.islice(self.numbers, batch), self.moves)]
            self.base.execute("BEGIN IMMEDIATE")
            self.base.executemany("INSERT INTO operations VALUES (?, ?, ?)", rows)
            self.base.executemany("UPDATE accounts SET balance = balance + ? WHERE id = ?",
                                  [(amount, account) for _, account, amount in rows])
            self.base.execute("COMMIT")
            done += batch
        return done / taken

    def stop(self) -> None:
        self.base.close()


class Postgresql:
    """A server of ours in a folder of ours, on a free port of 127.0.0.1."""

    def __init__(self, folder: str) -> None:
        found = sorted(glob.glob("/usr/lib/postgresql/*/bin"))
        self.bin, self.folder, self.data = found[-1], folder, os.path.join(folder, "postgresql")
        self.user = ["runuser", "-u", "nobody", "--"] if os.getuid() == 0 else []
        with socket.socket() as free:
            free.bind(("127.0.0.1", 0))
            self.port = free.getsockname()[1]
        os.mkdir(self.data)
        if self.user:
            shutil.chown(self.data, "nobody")
        self.run("initdb", "-D", f"{self.data}/base", "-U", "bank", "-A", "trust")
        with open(f"{self.data}/base/postgresql.conf", "a", encoding="utf-8") as file:
            file.write(f"listen_addresses='127.0.0.1'\nport={self.port}\nunix_socket_directories=''\n"
                       "max_connections=300\nshared_buffers=256MB\nmax_wal_size=4GB\n")
        self.run("pg_ctl", "start", "-w", "-s", "-D", f"{self.data}/base", "-l", f"{self.data}/log")
        rows = f"INSERT INTO accounts SELECT n, {BEGIN} FROM generate_series(0, {ACCOUNTS - 1}) n"
        self.run("psql", *self.place(), "-q", *[word for each in (*TABLES, rows) for word in ("-c", each)], "postgres")

    def place(self) -> list[str]:
        return ["-h", "127.0.0.1", "-p", str(self.port), "-U", "bank"]

    def run(self, tool: str, *words: str) -> str:
        run = subprocess.run([*self.user, f"{self.bin}/{tool}", *words], capture_output=True, text=True, cwd="/")
        if run.returncode:
            raise SystemExit(f"{tool}: {run.stderr.strip()}")
        return run.stdout

    def measure(self, clients: int, batch: int, seconds: float) -> float:
        path = os.path.join(self.data, f"{batch}.sql")
        sets, done = ("".join(each.format(n=n) for n in range(batch)) for each in (SETS, DONE))
        with open(path, "w", encoding="utf-8") as file:
            file.write(f"{sets}\\startpipeline\nBEGIN;{done}COMMIT;\n\\endpipeline\n")
        out = self.run("pgbench", *self.place(), "-n", "-M", "prepared", "-c", str(clients), "-j", str(min(2, clients)),
                       "-T", str(int(seconds)), "-f", path, "postgres")
        if not (rate := re.search(r"tps = ([\d.]+)", out)):
            raise SystemExit(f"pgbench: {out}")
        return batch * float(rate[1])

    def stop(self) -> None:
        self.run("pg_ctl", "stop", "-s", "-m", "fast", "-D", f"{self.data}/base")


class Used(NamedTuple):
    """Seconds of processor time: the program's own, and the kernel's for it."""
    own: float
    kernel: float

    @classmethod
    def by(cls, pids: list[int]) -> Used:
        fields = []
        for pid in pids:
            with open(f"/proc/{pid}/stat", encoding="utf-8") as file:
                fields.append(file.read().rpartition(")")[2].split())
        tick = os.sysconf("SC_CLK_TCK")
        return cls(*(sum(int(each[place]) for each in fields) / tick for place in (11, 12)))


class Service:
    """Three nodes of the broker and three sites, or the first one alone: that one is asked, and has the token."""

    def __init__(self, program: str, folder: str, is_alone: bool = False) -> None:
        self.folder, self.seed = os.path.join(folder, "alone" if is_alone else "service"), 0
        os.mkdir(self.folder)
        self.cluster = cluster.Cluster(os.path.join(self.folder, "broker"))
        accounts = [[f"a{n}", BEGIN] for n in range(ACCOUNTS)]
        self.bank = cluster.Bank(program, self.folder, self.cluster, accounts=accounts, sites=3)
        if not is_alone:
            self.cluster.start_all()
        sites = range(1 if is_alone else self.bank.sites)
        for site in sites:
            self.bank.start(site)
        for site in sites:
            self.bank.wait(site, wanted="up" if is_alone else "broker")

    def parts(self) -> dict[str, Used]:
        """The processor time that each part has used."""
        services = [process.pid for process in self.bank.running if process]
        children = [child for site in range(self.bank.sites) if (child := self.bank.child(site))]
        nodes = [pid for node in range(cluster.NODES) for pid in self.cluster.members(node)]
        parts = {"service": services[:1], "its child": children[:1], "others": services[1:],
                 "their children": children[1:], "broker": nodes}
        return {name: Used.by(pids) for name, pids in parts.items()}

    def wrk(self, clients: int, seconds: float, path: str, *words: str) -> float:
        threads, before = min(2, clients), self.parts()
        given = [f"-t{threads}", f"-c{clients}", f"-d{int(seconds)}s", "--latency", "--timeout", "30s", *words]
        url = f"http://{self.bank.http[0]}{path}"
        out = subprocess.run(["wrk", *given, url], capture_output=True, text=True).stdout
        if "Non-2xx" in out or "Socket errors" in out or "Requests/sec" not in out:
            raise SystemExit(f"wrk: {out}")
        half, most = (re.findall(rf"(?m)^\s+{part}%\s+(\S+)", out)[0] for part in (50, 99))
        print(f"  half of the answers in {half}, 99 of 100 in {most}")
        count = int(re.findall(r"(\d+) requests in", out)[0]) / 1e6
        print("  microseconds of processor time a request, the kernel's after the +: " + ", ".join(
            f"{name} {(now.own - before[name].own) / count:.0f}+{(now.kernel - before[name].kernel) / count:.0f}"
            for name, now in self.parts().items()))
        return float(re.findall(r"Requests/sec:\s+([\d.]+)", out)[0])

    def measure(self, clients: int, seconds: float, many: int = 1) -> float:
        self.seed += 1
        script = os.path.join(self.folder, "wrk.lua")
        with open(script, "w", encoding="utf-8") as file:
            file.write(WRK.replace("SEED", str(self.seed)).replace("MANY", str(many)))
        return many * self.wrk(clients, seconds, "/events", "-s", script)

    def health(self, clients: int, seconds: float) -> float:
        return self.wrk(clients, seconds, "/health")

    def stop(self) -> None:
        self.bank.stop()
        self.cluster.stop()


Measure = Callable[[], float]


def measures(asked: argparse.Namespace, folder: str, stops: list[Callable[[], None]]) -> Iterator[tuple[str, Measure]]:
    """What is measured, by its name: what it needs is started first, and stopped by the last argument's calls."""
    seconds = asked.seconds

    def wanted(name: str) -> bool:
        return not asked.only or name in asked.only
    if wanted("sqlite"):
        base = Sqlite(folder)
        stops.append(base.stop)
        yield from ((f"sqlite, {n} a commit", lambda n=n: base.measure(n, seconds)) for n in (1, BATCH))
    if wanted("postgresql"):
        server = Postgresql(folder)
        stops.append(server.stop)
        yield from ((f"postgresql, {n} clients", lambda n=n: server.measure(n, 1, seconds)) for n in CLIENTS)
        yield f"postgresql, {BATCH} a commit", lambda: server.measure(1, BATCH, seconds)
    if wanted("site"):
        site = Site(asked.program, folder)
        yield from ((f"site, {n} lines in flight", lambda n=n: site.measure(n, seconds)) for n in LINES)
    if wanted("service"):
        service = Service(asked.program, folder)
        stops.append(service.stop)
        yield from ((f"service, {n} clients", lambda n=n: service.measure(n, seconds)) for n in CLIENTS)
        yield f"service, lists of {BATCH}, 16 clients", lambda: service.measure(16, seconds, BATCH)
        yield from ((f"health, {n} clients", lambda n=n: service.health(n, seconds)) for n in CLIENTS)
    if wanted("alone"):
        alone = Service(asked.program, folder, True)
        stops.append(alone.stop)
        yield from ((f"alone, {n} clients", lambda n=n: alone.measure(n, seconds)) for n in CLIENTS)
        yield f"alone, lists of {BATCH}, 16 clients", lambda: alone.measure(16, seconds, BATCH)


def options() -> argparse.Namespace:
    reader = argparse.ArgumentParser(description=__doc__, formatter_class=argparse.RawDescriptionHelpFormatter)
    reader.add_argument("program", metavar="PROGRAM")
    reader.add_argument("--disk", metavar="FOLDER", default=".")
    reader.add_argument("--seconds", metavar="N", type=float, default=5)
    reader.add_argument("--rounds", metavar="N", type=int, default=3)
    reader.add_argument("--only", metavar="NAME", nargs="+",
                        choices=("sqlite", "postgresql", "site", "service", "alone"))
    asked = reader.parse_args()
    asked.program = os.path.abspath(asked.program)
    return asked


def check_tools() -> None:
    """Ends the process, and says what to install, if something is missing."""
    cluster.check_packages()
    missing = ["wrk"] * (shutil.which("wrk") is None) + ["postgresql"] * (not glob.glob("/usr/lib/postgresql/*/bin"))
    if missing:
        print(f"bench: no {' and no '.join(missing)} (Debian: apt-get install {' '.join(missing)})", file=sys.stderr)
        sys.exit(cluster.NO_PACKAGES)


def main() -> None:
    asked = options()
    check_tools()
    signal.signal(signal.SIGTERM, signal.default_int_handler)  # what was started is ended
    stops: list[Callable[[], None]] = []
    found: dict[str, list[float]] = {}
    with tempfile.TemporaryDirectory(prefix="bench-", dir=os.path.abspath(asked.disk)) as folder:
        os.chmod(folder, 0o755)
        try:
            all_of_them = list(measures(asked, folder, stops))
            for turn, (name, measure) in itertools.product(range(asked.rounds), all_of_them):
                found.setdefault(name, []).append(measure())
                print(f"{turn} {name}: {found[name][-1]:,.0f} a second, load {os.getloadavg()[0]:.1f}", flush=True)
        finally:
            for stop in stops:
                stop()
    base = max(found.get("sqlite, 1 a commit", [1.0]))
    print("\n| What | Best | Lowest | Over SQLite's with one a commit |\n|---|---|---|---|")
    for name, rates in found.items():
        print(f"| {name} | {max(rates):,.0f} | {min(rates):,.0f} | {max(rates) / base:.2f} |")


if __name__ == "__main__":
    main()
