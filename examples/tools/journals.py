"""Journals, and the sites that run on them as processes: for close.py and rebuild.py.

A site is given events, and answers each by a line. What it sends is kept, for whoever carries it to the other sites.
"""
from __future__ import annotations

import fcntl
import itertools
import json
import os
import shutil
import subprocess
from collections.abc import Iterator
from typing import Any

import bank

Json = dict[str, Any]
AT_ONCE = 30_000  # bytes of lines that a site is given before its answers are read, so that a pipe takes them
AT_REST, SEALED = b"\n ", b"\n\t"  # what a journal ends in
ALL = 100_000_000  # entries, more than any journal has
OTHERWISE = "the installed one" if bank.IS_INSTALLED else "rbbank on PATH, or the one that is built"
WHICH = f"the program; else {OTHERWISE}"  # the help of --program


def program(given: str | None) -> str:
    """The path of the program: this one, else the installed one, else that on PATH, else the one that is built."""
    ours = bank.INSTALLED if bank.IS_INSTALLED else shutil.which("rbbank")
    found = given or ours or (bank.BUILT if bank.built() else None)
    if found is None:
        raise bank.Stop("no rbbank is on PATH, and none is built (make build); --program gives one")
    if not os.access(found, os.X_OK) or os.path.isdir(found):
        raise bank.Stop(f"{found}: no program")
    return os.path.abspath(found)


def whole_lines(data: bytes) -> list[bytes]:
    """The lines of a journal: whole ones, up to the first that doesn't begin with a brace."""
    return list(itertools.takewhile(lambda line: line.startswith(b"{"), data.split(b"\n")[:-1]))


class Journal:
    """A journal as it is on the disk: its first line, the lines of its entries, and whether it is sealed. One that is
    damaged stops its reader, as it does a site."""

    def __init__(self, path: str) -> None:
        data = bank.read(path)
        self.path, self.is_sealed = path, data.endswith(SEALED)
        lines = whole_lines(data)
        rest = data[sum(len(line) + 1 for line in lines):]
        if lines and rest != b"\t" and rest[:1] not in (b"", b" ", b"\0", b"{"):
            raise bank.Stop(f"{path}: journal line {len(lines) + 1}: damaged")
        try:
            self.config: Json = json.loads(lines[0])
            self.sites, self.version = int(self.config["sites"]), int(self.config["version"])
        except (IndexError, KeyError, TypeError, ValueError):
            raise bank.Stop(f"{path}: no journal") from None
        self.first, self.lines = lines[0], lines[1:]

    def copy(self, path: str, end: bytes) -> None:
        """Writes its lines into a file, with this end."""
        with open(path, "wb") as file:
            file.write(b"\n".join([self.first, *self.lines]) + end)


def stop_if_in_use(path: str) -> None:
    """Stops where a site runs on a journal: as long as it does, it keeps the file locked."""
    with open(path, "rb") as file:
        try:
            fcntl.flock(file, fcntl.LOCK_SH | fcntl.LOCK_NB)
        except BlockingIOError:
            raise bank.Stop(f"{path}: its site runs; end it first") from None


def store(source: str, path: str) -> None:
    """Gives a whole file this name, for good: whatever happens, the name has the whole file or none. One that is there
    stays."""
    with open(source, "rb") as file:
        os.fsync(file.fileno())
    try:
        os.link(source, path)
    except FileExistsError:
        raise bank.Stop(f"{path} is there already") from None
    os.unlink(source)
    folder = os.open(os.path.dirname(os.path.abspath(path)), os.O_RDONLY)
    os.fsync(folder)
    os.close(folder)


# ---- names and clocks


def key_of(event: Json) -> str | None:
    """What a message is known by: its operation's name, or the token's epoch. Nothing of another event."""
    if "shadow" in event:
        return event["shadow"]["name"]
    return f"token {event['token'][0]}" if "token" in event else None


def sent_by(reply: Json) -> list[str]:
    """The same of what an event of this reply sent."""
    if "passed" in reply:
        return [f"token {reply['passed']}"]
    return [reply["name"]] if "kind" in reply else reply.get("names", [])


def counts(clock: list[Any]) -> dict[int, int]:
    """How many blue operations of each site a clock has, in either version."""
    blue = clock[0]
    return {site: n for site, n in (blue if blue and isinstance(blue[0], list) else enumerate(blue)) if n}


def covers(clock: list[Any], name: str) -> bool:
    """Whether a clock has the operation of this name."""
    if name[0] == "R":
        return int(name[1:]) <= clock[1]
    home, number = map(int, name[1:].split("."))
    return number <= counts(clock).get(home, 0)


def behind(shadow: Json) -> int:
    """How many operations its home had applied before an operation: fewer than before any that rests on it."""
    return sum(counts(shadow["deps"]).values()) + shadow["deps"][1]


# ---- a site as a process


def parts(lines: list[bytes]) -> Iterator[list[bytes]]:
    """The same lines, up to so many bytes at a time."""
    part: list[bytes] = []
    size = 0
    for line in lines:
        if part and size + len(line) > AT_ONCE:
            yield part
            part, size = [], 0
        part.append(line)
        size += len(line)
    if part:
        yield part


class Site:
    """A site as a process on its journal. At its start it sends nothing again."""

    def __init__(self, path: str, me: int, journal: str, first: bytes, *words: str) -> None:
        self.me, self.sent, self.errors = me, [], ""
        words = ("site", "--me", str(me), "--journal", journal, "--resend", "0", *words)
        self.process = subprocess.Popen([path, *words], stdin=subprocess.PIPE, stdout=subprocess.PIPE,
                                        stderr=subprocess.PIPE)
        self.give([first + b"\n"])

    def give(self, lines: list[bytes]) -> None:
        """Writes lines to it. One that has ended says why where its answers are read."""
        try:
            self.process.stdin.write(b"".join(lines))
            self.process.stdin.flush()
        except BrokenPipeError:
            pass

    def answer(self) -> Json:
        """Its next answer. What it sends before and with it is kept."""
        while line := self.process.stdout.readline():
            answer = json.loads(line)
            self.sent += answer.get("sends", [])
            if "reply" in answer or "bad" in answer:
                return answer
        self.close()
        raise bank.Stop(f"site {self.me} ended in {self.process.returncode}: {self.errors.strip()}")

    def ask(self, events: list[Json]) -> list[Json]:
        """The answers to these events, in their order."""
        answers = []
        for part in parts([bank.compact(event).encode() + b"\n" for event in events]):
            self.give(part)
            answers += [self.answer() for _ in part]
        return answers

    def about(self) -> Json:
        """What it has applied, how many entries it has, and so on, as docs/FORMAT.md says."""
        return self.ask([{"about": "site"}])[0]["reply"]["about"]

    def sent_again(self, last: int = ALL) -> list[Json]:
        """The messages of its last entries."""
        self.sent = []
        self.ask([{"resend": last}])
        return self.sent

    def close(self) -> None:
        """Ends its input, and waits for its end."""
        if self.process.returncode is None:
            try:
                self.process.stdin.close()
            except BrokenPipeError:
                pass
            self.process.stdout.read()
            self.errors = self.process.stderr.read().decode(errors="replace")
            self.process.wait()
            self.process.stdout.close()
            self.process.stderr.close()

    def end(self) -> str:
        """Ends it, and gives what it said. Its journal is at rest then."""
        self.close()
        if self.process.returncode != 0:
            raise bank.Stop(f"site {self.me} ended in {self.process.returncode}: {self.errors.strip()}")
        return self.errors
