"""A site of a bank: its files, the proved program as its child, and a desk before it.

A site's folder contains its periods: 0001.bank is the first line of the first, 0001.S.journal the journal of site S,
0001.confirmed how many of its entries the broker has, and 0001.closing whether its books are being closed. The next
period's journal is there before its first line is, so a service never makes a journal that ought to be there.

The child is given lines in order, and answers each by a line, once that is on the disk. When it ends, by whatever,
another one is started on the journal. It sends the messages of those entries again whose messages weren't handed on,
and is given again what the one before didn't answer. A request has an id, its client's or one that is made here, so it
is made once; a message is known by its name; a question changes nothing.

At the desk requests wait for the token. Services say to each other whether they want it, by messages that may be lost.
The one that has it keeps it for a moment for its own clients, and then passes it to the next site that wants it, round
the sites: so each has its turn. The pass is an event of the bank. While the books are being closed clients have to
wait, and the token stays.
"""
from __future__ import annotations

import asyncio
import contextlib
import functools
import json
import logging
import os
import re
import secrets
import time
from collections import Counter, deque
from collections.abc import AsyncIterator, Callable
from typing import Any, NamedTuple

from view import KEPT, Json as Json, View

with open(os.path.join(os.path.dirname(os.path.abspath(__file__)), "commands.json")) as commands:
    REQUESTS = ("batch", *(verb for verb, row in json.load(commands).items() if {"moves", "takes"} <= row.keys()))
    # what has an id
LEAVE_NO_ENTRY = {"refused", "balance", "already", "stale", "about", "resent"}
HOLD = 0.1  # seconds that a site keeps the token for its own clients
HEARD = 3.0  # seconds for which a site is taken to want the token after it said so
TAIL = 4 << 20  # bytes of the journal that are read as a child starts
KNOWN = 64 << 20  # bytes at the end of a closed journal whose requests are still known
PIPE = asyncio.subprocess.PIPE
SENDS, THEN = b',"sends":[', b'],"then":['  # what is before and after the messages in an answer
compact: Callable[[Any], str] = json.JSONEncoder(separators=(",", ":"), sort_keys=True).encode


# ---- files


class Fault(Exception):
    """What no start mends: another bank's journal, an older copy of it, a changed one, none."""


class Period(NamedTuple):
    folder: str
    bank: str
    number: int

    @property
    def name(self) -> str:
        return f"{self.bank}.{self.number:04}"

    def path(self, what: str) -> str:
        return os.path.join(self.folder, f"{self.number:04}.{what}")

    def journal(self, site: int) -> str:
        return self.path(f"{site}.journal")

    def other(self, by: int) -> Period:
        return self._replace(number=self.number + by)

    def begin(self, site: int, config: Json) -> Json:
        """Begins the period at a site, by an empty journal and then this first line; or says by which one it began."""
        if not os.path.exists(self.path("bank")):
            with open(self.journal(site), "ab") as file:
                if file.tell():
                    raise Fault(f"{file.name}: there is a journal")
            self.keep("bank", config)
        return dict(self.kept("bank"))

    def keep(self, what: str, value: Any, lasting: bool = True) -> None:
        store(self.path(what), compact(value).encode() + b"\n", lasting)

    def kept(self, what: str) -> Any:
        """What the period keeps under this name, if anything."""
        with contextlib.suppress(FileNotFoundError, ValueError):
            return load(self.path(what))
        return None


def last_period(folder: str, bank: str) -> Period:
    """The last period in a folder, which has the number 0 if there is none."""
    numbers = [int(name[:-5]) for name in os.listdir(folder) if re.fullmatch(r"\d{4,}\.bank", name)]
    return Period(folder, bank, max(numbers, default=0))


def load(path: str) -> Any:
    with open(path) as file:
        return json.load(file)


def store(path: str, data: bytes, lasting: bool = True) -> None:
    """Gives the data this name: whatever ends this process, the name has all of it, or what it had; and if it is to
    last, whatever ends the machine."""
    with open(path + ".new", "wb") as file:
        file.write(data)
    if lasting:
        sync(path + ".new")
    os.rename(path + ".new", path)
    if lasting:
        sync(os.path.dirname(path) or ".")


def sync(path: str) -> None:
    """Has the disk keep a file, or the names in a folder."""
    file = os.open(path, os.O_RDONLY)
    os.fsync(file)
    os.close(file)


def tail(path: str, most: int) -> bytes:
    """The last bytes of a file, this many at most."""
    with open(path, "rb") as file:
        file.seek(max(0, file.seek(0, os.SEEK_END) - most))
        return file.read()


def requests_of(journal: str) -> dict[str, bytes]:
    """The entries of the last requests of a closed journal, by their ids."""
    wanted = rb'(?m)^\{.*,"id":"([A-Za-z0-9._:-]{1,64})","reply":.*$'
    text = tail(journal, KNOWN) if os.path.exists(journal) else b""
    return {entry[1].decode(): entry[0] for entry in re.finditer(wanted, text)}


# ---- the child


async def until(fact: Callable[[], bool], seconds: float) -> bool:
    """Waits until something holds, for this number of seconds at most: whether it does."""
    end = time.monotonic() + seconds
    while not fact() and time.monotonic() < end:
        await asyncio.sleep(0.02)
    return fact()


async def lines_of(pipe: asyncio.StreamReader) -> AsyncIterator[bytes]:
    """The lines of a pipe; not what is after the last, if its writer was ended."""
    parts: list[bytes] = []
    while chunk := await pipe.read(1 << 20):
        parts.append(chunk)
        if b"\n" in chunk:
            *lines, rest = b"".join(parts).split(b"\n")
            parts = [rest]
            for line in lines:
                yield line


def texts(messages: list[Json]) -> list[bytes]:
    return [compact(message).encode() for message in messages]


def sends_of(answer: Json, line: bytes) -> list[bytes]:
    """The texts of the messages in an answer: if there is one, as the child wrote it."""
    if len(answer["sends"]) == 1:
        return [line[line.index(SENDS) + len(SENDS):line.rindex(THEN)]]
    return texts(answer["sends"])


class Site:
    def __init__(self, program: str, period: Period, me: int, config: Json) -> None:
        self.words = [program, "site", "--me", str(me), "--journal", period.journal(me)]
        self.period, self.me, self.config, self.view = period, me, config, View(config, me)
        self.entries = int(period.kept("confirmed") or 0)  # from the first on, those whose messages were handed on
        self.asked: deque[tuple[Json, str, asyncio.Future[Json]]] = deque()  # what isn't answered yet, in order
        self.ready: list[str] = []  # lines of it that the child isn't given yet
        self.process: asyncio.subprocess.Process | None = None
        self.starts, self.up, self.stopping, self.sealing, self.is_sealed = 0, False, False, False, False
        self.next = asyncio.Event()  # the next period has begun
        self.send: Callable[[int, list[bytes]], None]  # is given each entry's messages

    def ask(self, event: Json, line: str | None = None) -> asyncio.Future[Json]:
        """An event for the site, whose text may be known. The future has its answer, once that is on the disk."""
        if "id" not in event and not event.keys().isdisjoint(REQUESTS):
            event, line = event | {"id": secrets.token_hex(12)}, None
        future: asyncio.Future[Json] = asyncio.get_running_loop().create_future()
        line = line or compact(event)
        self.asked.append((event, line, future))
        if self.up:
            if not self.ready:
                asyncio.get_running_loop().call_soon(self.give)
            self.ready.append(line)
        return future

    def give(self, *lines: str) -> None:
        """Gives the child lines, and all that wait to be given."""
        assert self.process and self.process.stdin
        ready, self.ready = [*self.ready, *lines, ""], []
        with contextlib.suppress(RuntimeError):  # (uvloop, once the child has ended: the next one is given all)
            self.process.stdin.write("\n".join(ready).encode())

    async def run(self) -> None:
        """Starts a child on the journal, and again whenever it ended, until the site stops or is sealed. Then it waits
        for the next period. A child that a killed service left ends by itself, and uses the journal until then."""
        while not self.is_sealed and (self.sealing or not self.stopping):
            status, errors = await self.serve()
            self.is_sealed = "journal is sealed" in errors
            is_expected = self.is_sealed and self.period.kept("closing") or "journal is in use" in errors
            if status == 2 and not is_expected:
                raise Fault(errors)
            logging.info("the journal is sealed" if self.is_sealed else f"the child ended in {status}: {errors}")
            await asyncio.sleep(1 if status > 2 else 0.1)  # (above 2 the disk is full, or there is no memory)
        await self.next.wait()

    async def serve(self) -> tuple[int, str]:
        """Runs a child to its end, or one that seals the journal: its status, and what it said."""
        words = ["--seal"] if self.sealing else ["--bank", self.period.name, "--resend", "0"]
        self.process = process = await asyncio.create_subprocess_exec(
            *self.words, *words, stdin=PIPE, stdout=PIPE, stderr=PIPE, limit=1 << 30)  # (a statement may be long)
        assert process.stdout and process.stderr
        answers = lines_of(process.stdout)
        with contextlib.suppress(StopAsyncIteration):
            await self.begin(answers)
        async for line in answers:
            self.heard(line)
        self.up = False
        errors = await process.stderr.read()
        return await process.wait(), errors.decode(errors="replace").strip()

    async def begin(self, answers: AsyncIterator[bytes]) -> None:
        """Asks a new child where the site is, and for the messages that weren't handed on; then what isn't answered."""
        async def own(event: Json) -> tuple[Json, list[Json]]:
            self.give(compact(event))
            sent: list[Json] = []
            while "reply" not in (answer := json.loads(await anext(answers))):
                sent += answer["sends"]
            return answer["reply"], sent

        self.ready = []
        self.give(compact(self.config))
        about = (await own({"about": "site"}))[0]["about"]
        entries, known = about["entries"], self.entries
        if entries < known:
            raise Fault(f"the journal has {entries} entries, and {known} were reported: an older copy?")
        lines = tail(self.period.journal(self.me), TAIL).split(b"\n")[1:]  # (the first may be a part of one)
        last = [json.loads(line) for line in lines[-KEPT:] if line.startswith(b"{")]
        self.view.begin(about, last, (await own({"resend": min(KEPT, entries)}))[1])
        self.send(known, texts((await own({"resend": entries - known}))[1]))
        self.entries, self.starts, self.up = entries, self.starts + 1, True
        self.give(*(line for _, line, _ in self.asked))

    def heard(self, line: bytes) -> None:
        """Counts the entries of an answer, and hands its messages on. Those of a request that is answered again were
        handed on before, as its entry was counted, or are among those that this child sent again."""
        answer, (event, _, future) = json.loads(line), self.asked.popleft()
        if "reply" in answer and "again" not in answer:
            self.send(self.entries, sends_of(answer, line))
            self.entries += LEAVE_NO_ENTRY.isdisjoint(answer["reply"]) + len(answer["then"])
        if "reply" in answer:
            self.view.record(event, answer)
        if not future.done():
            future.set_result(answer)

    async def stop(self, patience: float = float("inf"), seals: bool = False) -> None:
        """Ends the child at the end of its input, once it has answered what it was asked; or has it sealed besides."""
        await until(lambda: self.up and not self.asked or self.is_sealed, patience)
        self.stopping, self.sealing = True, seals
        if self.process and self.process.stdin:
            self.process.stdin.close()
        await until(lambda: self.is_sealed if seals else not self.up, patience)


# ---- the desk


def lacks(reply: Json) -> bool:
    """Whether a request, alone or in a batch (13), was refused for want of the token (8), or of the red operations that
    were made where it was before (9)."""
    return reply.get("cause" if reply.get("refused") == 13 else "refused") in (8, 9)


class Desk:
    def __init__(self, site: Site) -> None:
        self.site, self.view, self.waiters = site, site.view, 0  # requests that wait for the token
        self.wanted = dict[int, float]()  # by other site: until when it is taken to want the token
        self.clocks = dict[int, Counter[str]]()  # by other site: what it said last that it applied
        self.others = dict[int, str]()  # by other site: the first operation that it sent and this one has another of
        self.told = set[int]()  # sites of which it was said that they have another operation of this one's
        self.closing = bool(site.period.kept("closing"))  # clients have to wait

    def behind(self) -> dict[int, int]:
        """By other site, how many operations this one lacks of those that it said it applied."""
        return {other: (clock - self.view.clock).total() for other, clock in self.clocks.items()}

    def says(self) -> Json:
        """What the other services hear of this one."""
        wants = self.waiters > 0 and not self.view.token["here"]
        return {"applied": self.view.clock, "others": self.others, "site": self.site.me, "wants": wants}

    async def hears(self, message: Any) -> None:
        """A message of the broker with what another service has applied, and whether it wants the token."""
        said = json.loads(message.body)
        if (other := said["site"]) != self.site.me:
            self.clocks[other] = Counter(said["applied"])
            self.wanted[other] = time.monotonic() + HEARD if said["wants"] else 0
            if (name := said.get("others", {}).get(str(self.site.me))) and other not in self.told:
                self.told.add(other)
                logging.error("an older copy of the journal of site %d was started: site %d has another %s",
                              self.site.me, other, name)

    def ask(self, ask: Callable[[], asyncio.Future[Json]], patience: float) -> asyncio.Future[Json]:
        """Asks the site, and again while it lacks the token, for this number of seconds at most."""
        end, moved = time.monotonic() + patience, self.view.moved
        answered: asyncio.Future[Json] = asyncio.get_running_loop().create_future()

        def heard(is_last: bool, asked: asyncio.Future[Json]) -> None:
            if asked.cancelled():
                answered.cancel()
            elif why := asked.exception():
                answered.set_exception(why)
            elif is_last or not lacks(asked.result().get("reply", {})):
                answered.set_result(asked.result())
            else:
                again = asyncio.ensure_future(self.again(ask, asked.result(), moved, end))
                again.add_done_callback(functools.partial(heard, True))
        ask().add_done_callback(functools.partial(heard, False))
        return answered

    async def again(self, ask: Callable[[], asyncio.Future[Json]], answer: Json, moved: asyncio.Future[None],
                    end: float) -> Json:
        """Asks once more whenever the token may be here."""
        while (left := end - time.monotonic()) > 0 and lacks(answer.get("reply", {})):
            self.waiters += 1
            await asyncio.wait({moved}, timeout=min(left, 1.0))
            self.waiters -= 1
            moved, answer = self.view.moved, await asyncio.shield(ask())
        return answer

    async def run(self) -> None:
        """Passes the token to the next site that wants it, once this one had it for a moment."""
        while True:
            await asyncio.sleep(0.02)
            now, me, sites = time.monotonic(), self.site.me, int(self.site.config["sites"])
            wanting = [other for other, end in self.wanted.items() if now < end]
            if wanting and not self.closing and self.view.token["here"] and now >= self.view.since + HOLD:
                to = min(wanting, key=lambda other: (other - me) % sites)
                del self.wanted[to]
                await asyncio.shield(self.site.ask({"pass": to}))

    async def step(self, asked: Json) -> tuple[int, Json]:
        """Does a step of close.py, as often as it is asked to, or says why it doesn't; with a status as of HTTP."""
        bank, step, site, period = asked["bank"], asked["step"], self.site, self.site.period
        if bank == period.other(-1).name:
            return 200, {"is": "closed", "line": site.config}
        if bank != period.name:
            return 409, {"error": f"this is {period.name}"}
        if step in ("open", "stop") and site.up and not site.stopping:
            self.closing = step == "stop"
            period.keep("closing", self.closing)
            about = (await site.ask({"about": "site"}))["reply"]["about"]
            return 200, {"is": "stopped" if self.closing else "open", "applied": about["applied"]}
        if step == "seal" and self.closing:
            await site.stop(seals=True)
        elif step == "next" and site.is_sealed:
            line = period.other(1).begin(site.me, asked["line"])
            site.next.set()
            return 200, {"is": "closed", "line": line}
        if step != "open" and site.is_sealed:
            return 200, {"is": "sealed"}
        return 409, {"error": f"no {step} now"}
