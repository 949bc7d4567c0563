#!/usr/bin/env python3
"""Runs a site on a real file, and has each of its calls of the system fail, be cut short or be its last, in turn.

usage: disk.py [--quiet] [--gate] PROGRAM      (--quiet prints only what failed; it wants a C compiler, cc)

A small library (fault_nth.c) is loaded before the C library. It counts each open, lock, read, write, sync and cut of
the journal and of its folder, and each read of the input and write of the output, and writes all of them down. Some
scripts are run: a new journal, a start, torn ends, messages that are held and applied, large batches. Then each of
their calls, in turn: is refused (EIO, ENOSPC), is done in part or whole and refused, is cut short, refuses all after it
(a full disk), or is the last one before SIGKILL. --gate takes one case of each sort of call and fault of a script. In
each case

  status and text     are those of docs/FORMAT.md; after a call that was only cut short all is as without a fault
  what was reported   is a prefix of what is reported without a fault. Whenever a byte of it went out, the entries that
                      it rests on were in the journal, and a sync had succeeded behind them; a file that is new was
                      synced in its folder. The calls say so: a model of the disk is kept beside them
  the journal         has, in its whole lines, what was reported, and nothing but entries that it has without a fault
  a start on it       goes on to the very journal, and the very answers, that there are without a fault; `rbbank audit`
                      takes the journal. It is started on the file as it is, on what was synced of it, and on that with
                      some of the writes that no sync followed, whole or in part
  a sync that failed  may lose what it should have brought to the disk, though it can still be read: the next start
                      writes it again before it reports anything that rests on it
  the lock            was taken before the file was read; a second process on it is refused

By these the test tells the program from four that differ from it in disk.rt or named_file.rt of crates/rb_journal/src,
whose calls no clause can see. Each was built by `rt try` from a copy, and failed here (not run by the gate):

  short write taken as whole       `self.file.write_at(bytes, at as u64).map(|_| ())` in `write_there`
  failed read is a short journal   `let _ = file.read_to_end(&mut bytes);` in `read_locked`
  disk never syncs                 `sync` is always true, `cut` doesn't sync, `make_durable` neither
  no lock                          `read_locked` without `file.try_lock()?`

The program from before a start wrote again what it read failed too.
"""
import argparse
import concurrent.futures
import errno
import json
import os
import random
import select
import shutil
import signal
import subprocess
import sys
import tempfile
import threading
import time
from collections import Counter
from typing import NamedTuple

from site_process import compact, is_journal_failed, read, whole_lines, without_notes, words_of_start

HERE = os.path.dirname(os.path.abspath(__file__))
sys.path.insert(0, os.path.join(os.path.dirname(HERE), "examples", "tools"))
from bank import requests  # noqa: E402

PATIENCE = 60  # seconds for one answer
LEAST, LEAST_OF_GATE = 1000, 200  # cases
ALL = 1 << 30  # bytes of a call, that is all of them
TORN = 2  # how many of the files that a loss of power may leave are tried for a case
SYNCS = ("fsync", "fdatasync")
WRITES = ("write", "pwrite")
BANK = {"accounts": [["ann", 100], ["bob", 0]], "sites": 2, "version": 1}
MANY = {"accounts": [["ann", 100], ["bob", 0]], "sites": 16, "version": 2}
MADE = requests({"account": "ann", "to": "bob", "cents": 50, "rate": 150, "name": "R1"})
BALANCE, STATEMENT = {"balance": "eve"}, {"statement": "ann"}
FIRST = [[event] for event in (*MADE, {"withdraw": ["bob", 99999]}, {
    "batch": [{"deposit": ["bob", 7]}, {"withdraw": ["ann", 80]}]}, BALANCE, STATEMENT)]
LAST = [[{"pass": 1}], [{"withdraw": ["ann", 1]}], [{"deposit": ["bob", 3]}]]


class Failed(Exception):
    """What isn't as it has to be."""


class Call(NamedTuple):
    """A call of the system, as fault_nth.c writes it down."""
    name: str
    kind: str
    inode: int
    at: int
    asked: int
    done: int
    error: int
    data: bytes


class Fault(NamedTuple):
    """What a call does instead."""
    what: str
    done: int = 0
    error: int = 0
    stays: int = 0
    kill: int = 0


class Ran(NamedTuple):
    """What a run wrote, how it ended, its calls, and the journal behind it (None: no file) with its inode."""
    out: bytes
    errors: str
    status: int
    calls: list
    journal: bytes
    inode: int


def calls_of(data):
    """The calls of a trace."""
    calls, at = [], 0
    while at < len(data):
        end = data.index(b"\n", at)
        name, kind, *numbers = data[at:end].decode().split()
        inode, place, asked, done, error = map(int, numbers)
        at = end + 1 + (max(0, done) if name in WRITES else 0)
        calls.append(Call(name, kind, inode, place, asked, done, error, data[end + 1:at]))
    return calls


class Disk:
    """A journal's file by the calls on it: what is read of it, and what a loss of power leaves of it."""

    def __init__(self, before, is_kept=True, pages_lost=False):
        self.now, self.pages_lost = before or b"", pages_lost
        self.kept, self.is_there = (self.now, before is not None) if is_kept else (b"", False)
        # what no sync has followed: the place of a write and its bytes, or the length of a cut and None
        self.waiting = [] if is_kept or not before else [(0, before)]

    def take(self, call, inode):
        done = call.done > 0
        if call.kind == "d" and call.name in SYNCS and done and not call.error:
            self.is_there = True
        if call.kind != "f" or call.inode != inode:
            return
        if call.name in WRITES and done or call.name == "ftruncate" and done:
            change = (call.at, call.data if call.name in WRITES else None)
            self.waiting.append(change)
            self.now = changed(self.now, *change)
        elif call.name in SYNCS and done and not call.error:
            # A sync of the data alone may leave the length of a cut for later.
            if call.name == "fsync" or all(data is not None for _, data in self.waiting):
                for change in self.waiting:
                    self.kept = changed(self.kept, *change)
                self.waiting = []
        elif call.name in SYNCS and self.pages_lost:
            self.waiting = []

    def left(self):
        """What a loss of power leaves if nothing but what was synced is on the disk."""
        return self.kept if self.is_there else None

    def torn(self, pick):
        """What else it may leave: with some of the changes that no sync followed, and some writes in part."""
        left = self.kept
        for at, data in self.waiting:
            chance = pick.random()
            if chance < 0.4 and data is not None and len(data) > 1:
                size = pick.randrange(len(data))
                left = changed(left, at, data[:size])
                rest = min(len(data) - size, pick.randrange(1, 200))
                if at + size >= len(self.kept):
                    left = changed(left, at + size, bytes(pick.choice([0, 10, 32, 123, 125, 255]) for _ in range(rest)))
            elif chance < 0.7:
                left = changed(left, at, data)
        return left


def changed(data, at, written):
    """A file with a write, or cut to a length if nothing is written."""
    data = data.ljust(at, b"\0")
    return data[:at] if written is None else data[:at] + written + data[at + len(written):]


class Program:
    """The program, which runs on journals in folders of their own, with or without a fault."""

    def __init__(self, path, folder):
        self.path, self.folder, self.library = os.path.abspath(path), folder, os.path.join(folder, "fault_nth.so")
        self.runs = Counter()
        if shutil.which("cc") is None:
            sys.exit("disk: there is no C compiler, cc")
        build = ["cc", "-shared", "-fPIC", "-O1", "-o", self.library, os.path.join(HERE, "fault_nth.c")]
        subprocess.run(build, check=True)

    def run(self, me, before, parts, resend=None, nth=0, fault=Fault("none")):
        """Runs a site on this journal (None: no file). Each part is given once all before it is answered."""
        with tempfile.TemporaryDirectory(dir=self.folder) as folder:
            journal, trace = os.path.join(folder, "journal"), os.path.join(self.folder, os.path.basename(folder) + ".t")
            if before is not None:
                with open(journal, "wb") as file:
                    file.write(before)
            words = {"LD_PRELOAD": self.library, "FAULT_FOLDER": folder, "FAULT_TRACE": trace, "FAULT_NTH": nth,
                     "FAULT_DONE": fault.done, "FAULT_ERRNO": fault.error, "FAULT_STAYS": fault.stays,
                     "FAULT_KILL": fault.kill}
            process = subprocess.Popen(words_of_start(self.path, me, journal, resend, "all"), stdin=subprocess.PIPE,
                                       stdout=subprocess.PIPE, stderr=subprocess.PIPE, bufsize=0,
                                       env={**os.environ, **{name: str(word) for name, word in words.items()}})
            out, errors, status = talk(process, parts)
            calls = calls_of(read(trace))
            os.remove(trace)
            there = os.path.exists(journal)
            return Ran(out, errors.replace(folder + "/", ""), status, calls, read(journal) if there else None,
                       os.stat(journal).st_ino if there else 0)

    def audit(self, text):
        run = subprocess.run([self.path, "audit"], input=text, capture_output=True)
        return (run.returncode, run.stderr) == (0, b"") and run.stdout.startswith(b'{"order":')


def talk(process, parts):
    """Gives a process its parts, one after another. What it wrote, and its status."""
    out, wanted = b"", 0
    with process:
        try:
            for part in parts:
                wanted += sum(b'{"accounts"' not in line for line in part.splitlines())
                process.stdin.write(part)
                while sum(line.startswith(b'{"reply"') for line in out.split(b"\n")[:-1]) < wanted:
                    if not select.select([process.stdout], [], [], PATIENCE)[0]:
                        process.kill()
                        raise Failed(f"no answer in {PATIENCE} s to {part[:100]!r}")
                    data = os.read(process.stdout.fileno(), 1 << 16)
                    if not data:
                        break
                    out += data
        except BrokenPipeError:
            pass
        process.stdin.close()
        out += process.stdout.read()
        return out, process.stderr.read().decode(), process.wait(PATIENCE)


class Script:
    """A start on a journal and the lines that are then given, with all that comes of them without a fault."""

    def __init__(self, program, name, parts, before=None, me=0, bank=BANK, resend=None, others=b""):
        self.program, self.name, self.me, self.before, self.resend = program, name, me, before, resend
        self.others = others  # entries of other sites, for an audit
        self.config = (compact(bank) + "\n").encode()
        given = [b"".join((compact(event) + "\n").encode() for event in part) for part in parts]
        self.parts = [self.config + given[0], *given[1:]]
        self.events = b"".join(given).splitlines(keepends=True)
        self.ran = program.run(me, before, self.parts, resend)
        self.lines = self.ran.out.splitlines(keepends=True)
        self.replies = [line for line in self.lines if line.startswith(b'{"reply"')]
        if (without_notes(self.ran.errors), self.ran.status) != ("", 0) or len(self.replies) != len(self.events):
            raise Failed(f"{name}: without a fault: status {self.ran.status}: {self.ran.errors}")
        self.whole = self.ran.journal[:-1]
        self.begun = whole_lines(before or b"") or self.whole[:self.whole.index(b"\n") + 1]
        self.rests_on = self.needs()
        self.known, self.lock = {}, threading.Lock()

    def needs(self):
        """For each line that is written, how much of the journal it rests on."""
        entries, at, needs = self.whole[len(self.begun):].splitlines(keepends=True), len(self.begun), []
        for line in self.lines:
            answer = json.loads(line)
            for _ in range(1 + len(answer["then"]) if "reply" in answer else 0):
                at += len(entries.pop(0))
            needs.append(at)
        return needs

    def reported(self, size):
        """The front of the journal that the first bytes of the output rest on."""
        out = self.ran.out[:size]
        lines = out.count(b"\n") + (not out.endswith(b"\n"))
        return self.whole[:self.rests_on[lines - 1]] if size else b""

    def cases(self):
        """Each call with each of its faults."""
        for nth, call in enumerate(self.ran.calls, 1):
            for fault in faults_of(call):
                yield nth, call, fault

    # ---- what has to hold

    def look(self, nth, call, fault, pick):
        """Runs a case, and looks at all that has to hold of it."""
        ran = self.program.run(self.me, self.before, self.parts, self.resend, nth, fault)
        # The call that it was: a read of the input may bring less than it did before.
        call = ran.calls[nth - 1] if nth <= len(ran.calls) else call
        self.look_at_end(ran, call, fault)
        told = len(ran.out)
        self.look_at_calls(ran, Disk(self.before, is_kept=False))
        disk = self.look_at_calls(ran, Disk(self.before))
        if disk.now != (ran.journal or b""):
            raise Failed("the calls don't say what is in the file")
        lines = whole_lines(ran.journal or b"")
        if not self.whole.startswith(lines) and lines != whole_lines(self.before or b""):
            raise Failed("the journal has another entry than without a fault")
        for left in dict.fromkeys([ran.journal, disk.left(), *(disk.torn(pick) for _ in range(TORN))]):
            if left is not None or not told:
                self.goes_on(left, self.reported(told))
        if call.name in SYNCS and fault.error and not fault.done:
            self.look_at_lost_pages(ran)

    def look_at_end(self, ran, call, fault):
        """The status, the text, and what was written."""
        texts = {"i": "rbbank: read failed\n", "o": "rbbank: write failed\n"}
        errors, status = without_notes(ran.errors), ran.status
        if fault.kill:
            fine = (errors, status) == ("", -signal.SIGKILL)
        elif not fault.error and not fault.stays:
            fine = (errors, status, ran.out, ran.journal) == ("", 0, self.ran.out, self.ran.journal)
        elif fault.error == errno.EWOULDBLOCK:
            fine = (errors, status) == ("rbbank: journal is in use\n", 2)
        else:
            fine = status == 3 and (errors == texts.get(call.kind) or call.kind in "fd" and is_journal_failed(errors))
        if not fine:
            raise Failed(f"status {status}, {errors!r}")
        if not self.ran.out.startswith(ran.out):
            raise Failed(f"it wrote otherwise than without a fault: {ran.out[-300:]!r}")

    def look_at_calls(self, ran, disk, front=None):
        """What is reported is in the journal and on the disk, and the journal was locked first. The disk behind it."""
        told, locked = 0, False
        for call in ran.calls:
            locked = locked or call.name == "flock" and call.done > 0 and not call.error
            if call.kind == "f" and call.name not in ("open", "flock") and not locked:
                raise Failed(f"a call before the lock: {call.name}")
            disk.take(call, ran.inode)
            if call.kind == "o" and call.done > 0:
                told += call.done
                wanted = self.reported(told) if front is None else front
                if not (disk.is_there and disk.kept.startswith(wanted)):
                    raise Failed("what it reports isn't on the disk yet")
        return disk

    def goes_on(self, left, reported):
        """A start on what is left has what was reported, and goes on from there to the very end."""
        with self.lock:
            known = self.known.get(left)
        if known is None:
            known = self.started_on(left)
            with self.lock:
                self.known[left] = known
        if not known.startswith(reported):
            raise Failed("a start lacks what was reported")

    def started_on(self, left):
        """The lines that a start finds in what is left. From there it has to go on as without a fault."""
        ran = self.program.run(self.me, left, [self.config], 0)
        lines = whole_lines(ran.journal or b"")
        if (ran.out, without_notes(ran.errors), ran.status, ran.journal) != (b"", "", 0, lines + b" "):
            raise Failed(f"a start on what is left: status {ran.status}: {ran.errors}")
        if not self.whole.startswith(lines) or not self.program.audit(lines + self.others):
            raise Failed("a start on what is left: the journal has other entries, or an audit doesn't take it")
        entries = lines[len(self.begun):].splitlines()
        done = sum("applied" not in json.loads(line)["reply"] for line in entries)
        ran = self.program.run(self.me, ran.journal, [self.config + b"".join(self.events[done:])], 0)
        if (ran.out, ran.status, ran.journal) != (b"".join(self.replies[done:]), 0, self.ran.journal):
            raise Failed(f"a start on what is left goes on otherwise: status {ran.status}: {ran.errors}")
        return lines

    def look_at_lost_pages(self, ran):
        """A start on what can still be read, of which nothing but what was synced before is on the disk."""
        before = self.look_at_calls(ran, Disk(self.before, pages_lost=True))
        again = self.program.run(self.me, ran.journal, [self.config])
        disk = Disk(ran.journal)
        disk.kept, disk.is_there = before.kept, before.is_there
        self.look_at_calls(again, disk, whole_lines(ran.journal or b""))


def faults_of(call):
    """What else may come of a call."""
    refused = [Fault("EIO", error=errno.EIO)]
    if call.kind == "i" or call.name == "read":
        sizes = [size for size in (1, call.done // 2, call.done - 1) if 0 < size < call.done]
        return refused + [Fault(f"{size} bytes of it", done=size) for size in dict.fromkeys(sizes)]
    full = Fault("ENOSPC", error=errno.ENOSPC)
    ends = [Fault("SIGKILL before it", kill=1), Fault("SIGKILL behind it", done=ALL, kill=1)]
    if call.name == "flock":
        return refused + ends + [Fault("ENOLCK", error=errno.ENOLCK), Fault("EWOULDBLOCK", error=errno.EWOULDBLOCK)]
    if call.name == "open":
        return refused + ends + [full, Fault("EMFILE", error=errno.EMFILE)]
    if call.name not in WRITES:
        done = [Fault("EIO, and it is done", done=1, error=errno.EIO)]
        return refused + [full, *ends, *done, Fault("EIO for good", error=errno.EIO, stays=errno.EIO)]
    sizes = [size for size in (1, call.asked // 2, call.asked - 1) if 0 < size < call.asked]
    parts = [Fault(f"{size} bytes of it", done=size) for size in dict.fromkeys(sizes)]
    if sizes:
        parts += [Fault("SIGKILL in the middle", done=call.asked // 2, kill=1)]
    if call.kind == "f":
        half = call.asked // 2
        parts += [Fault("EIO in the middle", done=half, error=errno.EIO), Fault("EIO, and it is done", ALL, errno.EIO),
                  Fault("EIO for good", error=errno.EIO, stays=errno.EIO)]
        parts += [Fault("a full disk", done=half, stays=errno.ENOSPC)] if half else []
    return refused + [full, *ends, *parts]


def scripts(program):
    """The scripts, each of which is run once without a fault here."""
    site = Script(program, "a start on a journal at rest", LAST, Script(program, "", FIRST).ran.journal)
    first = Script(program, "a new journal", FIRST[:4])
    journal, half = site.before, site.whole
    sent = [message for line in first.lines for message in json.loads(line)["sends"]]
    entries = first.whole.partition(b"\n")[2]
    deposits = [{"deposit": ["ann", cents]} for cents in range(1, 301)]
    long = Script(program, "", [deposits, deposits]).ran.journal
    last = whole_lines(journal)[:-1].rindex(b"\n") + 1
    yield first
    yield site
    yield Script(program, "an empty file", [MADE[:2], MADE[2:4]], b"")
    yield Script(program, "a file without a whole line", [MADE[:1]], b' "accounts":[["ann",1')
    yield Script(program, "a line that is there in part", LAST, journal[:last + 30], resend=1)
    yield Script(program, "a batch that was never reported", LAST[:2], journal + half[last + 1:] + b" ", resend=0)
    yield Script(program, "NUL behind the gate", LAST[:2], journal + bytes(5000), resend=2)
    yield Script(program, "messages that are held and applied", [[sent[2]], [sent[1], sent[3]], [sent[0]], [BALANCE]],
                 me=1, others=entries)
    yield Script(program, "a batch of many lines", [deposits, LAST[0] + deposits], first.ran.journal)
    yield Script(program, "a long journal", [deposits[:100], [BALANCE]], long, resend=5)
    yield Script(program, "the last of sixteen sites", [MADE[:1], [STATEMENT]], me=15, bank=MANY)


def used_twice(program):
    """A second process on a journal is refused, and changes nothing; the first goes on."""
    with tempfile.TemporaryDirectory() as folder:
        journal, config = os.path.join(folder, "journal"), (compact(BANK) + "\n").encode()
        first = subprocess.Popen(words_of_start(program.path, 0, journal, record="all"), stdin=subprocess.PIPE,
                                 stdout=subprocess.PIPE, bufsize=0)
        first.stdin.write(config + b'{"deposit":["ann",500]}\n')
        line, before = first.stdout.readline(), read(journal)
        words = words_of_start(program.path, 0, journal, record="all")
        second = subprocess.run(words, input=config, capture_output=True)
        same = read(journal) == before
        rest, _ = first.communicate(b'{"balance":"ann"}\n')
        fine = (second.stdout, second.stderr, second.returncode) == (b"", b"rbbank: journal is in use\n", 2)
        return fine and same and line and rest.startswith(b'{"reply":{"balance":600}')


def share_of(cases, pick):
    """One of the cases of each sort of call and fault."""
    sorts = {}
    for case in cases:
        _, call, fault = case
        sorts.setdefault((call.kind, call.name, fault.what), []).append(case)
    return [pick.choice(alike) for alike in sorts.values()]


def results(program, is_of_gate):
    """Each case, with what is wrong with it (None: nothing)."""
    yield "a second process", None if used_twice(program) else "it isn't refused"
    with concurrent.futures.ThreadPoolExecutor(os.cpu_count()) as pool:
        for script in scripts(program):
            def tried(case, script=script):
                nth, call, fault = case
                name = f"{script.name}: call {nth}, {call.name} of {call.asked}: {fault.what}"
                try:
                    script.look(nth, call, fault, random.Random(nth))
                except (Failed, OSError, ValueError, IndexError, subprocess.TimeoutExpired) as why:
                    return name, f"{why}"
                return name, None
            cases = script.cases()
            yield from pool.map(tried, share_of(cases, random.Random(script.name)) if is_of_gate else cases)


def main():
    reader = argparse.ArgumentParser(description=__doc__, formatter_class=argparse.RawDescriptionHelpFormatter)
    reader.add_argument("program", metavar="PROGRAM", help="a built rbbank")
    reader.add_argument("--quiet", action="store_true", help="print only what failed")
    reader.add_argument("--gate", action="store_true", help="take a share of the cases")
    asked = reader.parse_args()
    if not os.access(asked.program, os.X_OK) or os.path.isdir(asked.program):
        reader.error(f"{asked.program}: no program")
    begun, count, wrong = time.monotonic(), Counter(), 0
    with tempfile.TemporaryDirectory(prefix="disk-") as folder:
        try:
            for name, why in results(Program(asked.program, folder), asked.gate):
                count[name.split(":")[0]] += 1
                wrong += why is not None
                if why is not None:
                    print(f"DIFFERENT {name}: {why}", flush=True)
        except Failed as why:
            sys.exit(f"disk: {why}")
    if not asked.quiet:
        print("\n".join(f"{cases:5} cases: {name}" for name, cases in count.items()))
        print(f"{sum(count.values()):,} cases, {wrong} different; {time.monotonic() - begun:.0f} s")
    return 0 if wrong == 0 and sum(count.values()) >= (LEAST_OF_GATE if asked.gate else LEAST) else 1


if __name__ == "__main__":
    sys.exit(main())
