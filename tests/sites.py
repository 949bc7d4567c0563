#!/usr/bin/env python3
"""Runs a site on journals that a crash or a fault left, and on faults that no file of examples/ can have.

usage: sites.py [--quiet] PROGRAM      (--quiet prints only what is different)

Which of the operations that are ready at once is applied first; a journal cut at each byte, and with any bytes behind
its space; a restart after each line; lines one at a time and all at once; many large answers in little memory; a new
journal where one is there, and none where it has to be; another bank's journal; a damaged one; a folder, a device and
a full disk as journal; a file that is refused, or can't be written; one that is a standard stream, or whose name is too
long; one that is cut while a site runs; a second process; input and output that aren't ready; output that can't be
written; lines that are no events, or too long; ids in each order, and what is none; options in each order, and wrong
words; a sealed journal; by strace, the order of writes and syncs; the pipes that docs/RUNNING.md shows.
"""
import ctypes
import errno
import itertools
import json
import os
import random
import re
import resource
import shlex
import shutil
import signal
import subprocess
import sys
import tempfile
import time

sys.path.insert(0, os.path.join(os.path.dirname(os.path.dirname(os.path.abspath(__file__))), "examples", "tools"))
import report  # noqa: E402
from bank import requests, without_why  # noqa: E402
from site_process import compact, read, whole_lines  # noqa: E402

ROOT = os.path.dirname(os.path.dirname(os.path.abspath(__file__)))
EXAMPLES = os.path.join(ROOT, "examples")
BANK = b'{"accounts":[["ann",0]],"sites":2,"version":1}\n'
BALANCE = b'{"balance":"ann"}\n'
AT_REST = b" "
LINE_LIMIT = 1_048_576  # bytes of a line without its line feed (docs/FORMAT.md)
MEMORY = 1 << 30  # bytes that a site may take whose journal is a device without an end
LITTLE_MEMORY = 64 << 20  # bytes that a site may take with many large answers in one read
PR_CAPBSET_DROP, CAP_DAC_OVERRIDE = 24, 1  # of <sys/prctl.h> and <linux/capability.h>
# Each kind of event at site 0 of two: made, refused, received, held, applied and passed.
MADE = requests({"account": "ann", "to": "bob", "cents": 50, "rate": 150, "name": "R1"})
EVENTS = b"".join(compact(event).encode() + b"\n" for event in [{"deposit": ["ann", 500]}, *MADE]) + b"""\
{"withdraw":["bob",99999]}
{"batch":[{"deposit":["bob",7]},{"withdraw":["ann",80]}]}
{"batch":[]}
{"shadow":{"account":"ann","amount":5,"deps":[[0,1,0,0,0,0,0,0],0],"home":1,"kind":"deposit","name":"B1.2"}}
{"apply":"B1.2"}
{"shadow":{"account":"bob","amount":6,"deps":[[0,0,0,0,0,0,0,0],0],"home":1,"kind":"deposit","name":"B1.1"}}
{"shadow":{"account":"bob","amount":6,"deps":[[0,0,0,0,0,0,0,0],0],"home":1,"kind":"deposit","name":"B1.1"}}
{"pass":1}
{"withdraw":["ann",1]}
{"token":[2,0,3]}
{"token":[2,0,3]}
{"asof":["ann",3]}
{"statement":"ann"}
{"balance":"eve"}
{"balance":"bob"}
"""


def stored(name):
    """A file of examples/sites."""
    with open(os.path.join(EXAMPLES, "sites", name), "rb") as file:
        return file.read()


class Sites:
    """Runs of a program's sites, each in a folder of its own."""

    def __init__(self, program):
        self.program = os.path.abspath(program)

    def words(self, journal, me=0, resend=None, new=None, record="all", bank=None):
        """The words of a site. A new journal is asked for where none is there, unless `new` says otherwise. All events
        are recorded, unless `record` says otherwise: so each line shows in the journal. Its bank may have a name."""
        new = not os.path.exists(journal) if new is None else new
        more = (["--new"] if new else []) + ([] if resend is None else ["--resend", str(resend)])
        more += ([] if record is None else ["--record", record]) + ([] if bank is None else [f"--bank={bank}"])
        return [self.program, "site", "--me", str(me), "--journal", journal, *more]

    def run(self, given, before=None, limit=None, signals=True, output=subprocess.PIPE, **words):
        """Output, errors and status of a site on this input and journal, and the journal afterwards (None: no file)."""
        with tempfile.TemporaryDirectory() as folder:
            journal = os.path.join(folder, "journal")
            if before is not None:
                write(journal, before)
            at, errors, status = self.at(journal, given, limit, signals, output, **words)
            errors = errors.replace(folder + os.sep, "")
            return at, errors, status, read(journal) if os.path.exists(journal) else None

    def at(self, journal, given, limit=None, signals=True, output=subprocess.PIPE, memory=None, may_override=True,
           **words):
        """The same for a journal that is there. A superuser may be one for whom permissions count."""
        def bounds():
            if not may_override and os.geteuid() == 0:
                ctypes.CDLL(None).prctl(PR_CAPBSET_DROP, CAP_DAC_OVERRIDE, 0, 0, 0)
            if memory is not None:
                resource.setrlimit(resource.RLIMIT_AS, (memory, memory))
            if limit is not None:
                signal.signal(signal.SIGXFSZ, signal.SIG_DFL if signals else signal.SIG_IGN)
                resource.setrlimit(resource.RLIMIT_FSIZE, (limit, limit))
        run = subprocess.run(self.words(journal, **words), input=given, stdout=output, stderr=subprocess.PIPE,
                             preexec_fn=bounds, restore_signals=signals, timeout=60)
        return run.stdout or b"", run.stderr.decode(), run.returncode


def write(path, data):
    with open(path, "wb") as file:
        file.write(data)


def entries(journal):
    """The lines of a journal at rest behind its configuration."""
    return whole_lines(journal).split(b"\n", 1)[1]


def behind(journal):
    """The bytes of a journal that a start cuts off and keeps: those behind its lines, unless they are a gate alone."""
    rest = journal[len(whole_lines(journal)):]
    return b"" if rest in (b"", b" ", b"\0") else rest


def note(journal, kept="journal.cut"):
    """What a start says of them."""
    lines, count = whole_lines(journal).count(b"\n"), len(behind(journal))
    return f"rbbank: journal line {lines}: {count} bytes behind it cut off, kept in {kept}\n" if count else ""


def torn(sites):
    """A journal cut at each byte behind its first line, and with any bytes behind its space."""
    journal = stored("site_deposit.site.journal")
    first = journal.index(b"\n") + 1
    for cut in range(first, len(journal) + 1):
        before, kept = journal[:cut], whole_lines(journal[:cut]) + AT_REST
        yield f"cut at byte {cut}", sites.run(BANK, before, resend=0) == (b"", note(before), 0, kept)
    pick = random.Random(1)
    line = b'{"event":{"balance":"ann"},"reply":{"balance":500},"site":0}\n'
    tails = [b"\0" * 5000, line, line[1:], line[1:] + b" ", b"\n" + line, b"\n \n" + line * 3, b"{" * 70000]
    tails += [bytes(pick.randrange(256) for _ in range(pick.randrange(1, 300))) for _ in range(20)]
    for number, tail in enumerate(tails):
        name, before = f"bytes behind the space, {number}", journal + tail
        yield name, sites.run(BANK, before, resend=0) == (b"", note(before), 0, journal)
    for number, tail in enumerate([b" ", b"\0", b"\0" * first, b"\0\n{}\n"]):
        name, before = f"bytes in place of the space, {number}", journal[:-1] + tail
        yield name, sites.run(BANK, before, resend=0) == (b"", note(before), 0, journal)
    # The first write leaves a gate, and behind it up to as many bytes as the configuration's line has.
    for number, tail in enumerate([b"", b" ", b"\0", b" \0\0", b" " + journal[1:first] + b" ", b"\0" + b"\n" * first]):
        yield f"no line yet, {number}", sites.run(BANK, tail) == (b"", note(tail), 0, journal[:first] + AT_REST)
    # What is behind goes on from the lines that were left.
    answer, errors, status, after = sites.run(BANK + BALANCE, journal[:-30], resend=0)
    out = b'{"reply":{"balance":500},"sends":[],"then":[]}\n'
    yield "a torn journal goes on", (answer, errors, status, after) == (out, note(journal[:-30]), 0, journal)


def kept(sites):
    """What a start cuts off is added to a file beside the journal, which no more may read than the journal."""
    journal, tails = stored("site_deposit.site.journal"), [b" {torn", b"", b" ", b"{", b"\0more\n"]
    with tempfile.TemporaryDirectory() as folder:
        name = os.path.join(folder, "journal")
        for number, tail in enumerate(tails):
            write(name, journal[:-1] + tail)
            os.chmod(name, 0o640)
            ended = sites.at(name, BANK, resend=0)
            fine = ended == (b"", note(journal[:-1] + tail, name + ".cut"), 0) and read(name) == journal
            yield f"what is cut off is kept, {number}", fine
        fine = read(name + ".cut") == b"".join(behind(journal[:-1] + tail) for tail in tails)
        yield "... all of it", fine and os.stat(name + ".cut").st_mode & 0o777 & ~0o640 == 0
        os.remove(name + ".cut")
        os.mkdir(name + ".cut")
        write(name, journal + b"more")
        _, errors, status = sites.at(name, BANK, resend=0)
        fine = errors.startswith("rbbank: journal failed") and status == 3
        yield "what can't be kept isn't cut off", fine and read(name) == journal + b"more"


def kept_nowhere(sites):
    """What can be kept in no regular file of its own isn't cut off: the start is refused, and waits for nobody."""
    journal = stored("site_deposit.site.journal")
    torn_end = journal + b"more"
    ways = {
        "a link to the journal": lambda path: os.symlink(path, path + ".cut"),
        "the journal by another name": lambda path: os.link(path, path + ".cut"),
        "a pipe": lambda path: os.mkfifo(path + ".cut"),
        "a device": lambda path: os.symlink("/dev/null", path + ".cut"),
    }
    for what, make in ways.items():
        with tempfile.TemporaryDirectory() as folder:
            name = os.path.join(folder, "journal")
            write(name, torn_end)
            make(name)
            ended = sites.at(name, BANK, resend=0)
            why = f"rbbank: journal failed: {name}: its .cut: it is no regular file of its own\n"
            yield f"what is cut off would be kept in {what}", ended == (b"", why, 3) and read(name) == torn_end
    with tempfile.TemporaryDirectory() as folder:
        name = os.path.join(folder, "journal")
        write(name, torn_end)
        with open(name + ".cut", "wb") as out:
            ended = sites.at(name, BANK, resend=0, output=out)
        why = f"rbbank: journal failed: {name}: its .cut: it is no regular file of its own\n"
        fine = ended == (b"", why, 3) and read(name) == torn_end and read(name + ".cut") == b""
        yield "what is cut off would be kept in the output", fine


def longest_name(sites):
    """The name of a new journal has to be one with .cut behind it too; a journal that has no such name runs as ever."""
    journal = stored("site_deposit.site.journal")
    with tempfile.TemporaryDirectory() as folder:
        longest = os.path.join(folder, "j" * os.pathconf(folder, "PC_NAME_MAX"))
        why = f"its .cut: {os.strerror(errno.ENAMETOOLONG)} (os error {errno.ENAMETOOLONG})\n"
        refused = b"", f"rbbank: journal failed: {longest}: {why}", 3
        yield "a new journal whose name is too long", sites.at(longest, BANK) == refused and os.listdir(folder) == []
        write(longest, journal)
        yield "a journal whose name is too long", sites.at(longest, BANK, resend=0) == (b"", "", 0)
        write(longest, journal + b"more")
        fine = sites.at(longest, BANK, resend=0) == refused and read(longest) == journal + b"more"
        yield "... with a torn end", fine
        os.remove(longest)
        yield "the longest name of a new journal", sites.at(longest[:-4], BANK) == (b"", "", 0)


def restarted(sites, bank, events, resend):
    """The answers of a site that starts again before each line, and its journal."""
    with tempfile.TemporaryDirectory() as folder:
        journal = os.path.join(folder, "journal")
        out = b""
        for line in events.splitlines(keepends=True):
            answer, errors, status = sites.at(journal, bank + line, resend=resend)
            if (errors, status) != ("", 0):
                return None
            out += answer
        return out, read(journal)


def one_at_a_time(sites, bank, events):
    """The answers of a site that is given a line once the one before is answered, and its journal."""
    with tempfile.TemporaryDirectory() as folder:
        journal = os.path.join(folder, "journal")
        run = subprocess.Popen(sites.words(journal), stdin=subprocess.PIPE, stdout=subprocess.PIPE)
        run.stdin.write(bank)
        out = b""
        for line in events.splitlines(keepends=True):
            run.stdin.write(line)
            run.stdin.flush()
            out += run.stdout.readline()
        rest, _ = run.communicate()
        return out + rest, read(journal)


def same_however_read(sites):
    """A site answers the same however its lines come, and whenever it starts again."""
    bank = b'{"accounts":[["ann",100],["bob",0]],"sites":2,"version":1}\n'
    out, errors, status, journal = sites.run(bank + EVENTS)
    lines = out.count(b"\n"), EVENTS.count(b"\n")
    yield "each kind of event", (errors, status) == ("", 0) and lines[0] == lines[1] and journal.endswith(b"\n ")
    yield "one line at a time", one_at_a_time(sites, bank, EVENTS) == (out, journal)
    yield "started again before each line", restarted(sites, bank, EVENTS, 0) == (out, journal)
    again, errors, status, same = sites.run(bank, journal)
    messages = [message for line in out.splitlines() for message in sent_by(line)]
    resent = [message for line in again.splitlines() for message in sent_by(line)]
    fine = (errors, status, same) == ("", 0, journal) and b'"reply"' not in again
    yield "all messages again", fine and messages == resent and len(messages) > 7
    loose = b"\n \t\r\n".join([b"", *bank.splitlines(), *EVENTS.splitlines()])
    yield "blank lines, and a last line without its end", sites.run(loose) == (out, "", 0, journal)
    config = b' {"version": 1, "sites": 2, "accounts": [["ann", 100], ["bob", 0]]}\n'
    yield "another writing of the configuration", sites.run(config + EVENTS) == (out, "", 0, journal)


def operation(name, home, blue, red=0, kind="deposit"):
    """The event line of an operation of a site, by the clock that it was made at."""
    deps = [(blue + [0] * 8)[:8], red]
    made = {"account": "ann", "amount": 1, "deps": deps, "home": home, "kind": kind, "name": name}
    return json.dumps({"shadow": made}, separators=(",", ":"), sort_keys=True).encode() + b"\n"


def ready_at_once(sites):
    """What one delivery makes ready is applied by home, whatever the order in which it came; what an application makes
    ready has its turn by its own home too. Site 3 receives the first operation of site 2 behind all others."""
    bank = b'{"accounts":[["ann",100]],"sites":4,"version":1}\n'
    held = [operation("B0.1", 0, [0, 0, 1]), operation("R1", 1, [0, 0, 1], kind="withdraw"),
            operation("R2", 0, [1, 0, 1], 1, "withdraw"), operation("B1.1", 1, [0, 0, 1], 1),
            operation("B2.2", 2, [0, 0, 1])]
    wanted = b'"then":[' + b",".join(b'{"applied":"%s"}' % name for name in (
        b"B2.1", b"B0.1", b"R1", b"R2", b"B1.1", b"B2.2")) + b"]}\n"
    for turn in range(len(held)):
        lines = held[turn:] + held[:turn] + [operation("B2.1", 2, [])]
        out, errors, status, _journal = sites.run(bank + b"".join(lines), me=3)
        yield f"ready at once, {turn}", (errors, status) == ("", 0) and out.endswith(wanted) and out.count(b"\n") == 6


def sent_by(line):
    """The messages that an answer, or a line of messages sent again, has."""
    found = re.search(rb'"sends":\[(.*?)\](?:,"then":\[[^\]]*\])?\}$', line)
    return re.findall(rb'\{"(?:shadow":\{.*?\}|token":\[[^\]]*\])\}', found.group(1) if found else b"")


def audited(sites):
    """What really happened: the journals one after another, all but the first without its first line."""
    one, two = stored("site_deposit.site.journal"), stored("site_receives.site.journal")
    for name, given, out in [("site 0 first", one + entries(two), b"[0,0,1,1,1]"),
                              ("site 1 first", two + entries(one), b"[0,0,1,1,1]"), ("site 0 alone", one, b"[0,0]")]:
        run = subprocess.run([sites.program, "audit"], input=given, capture_output=True)
        yield f"audit of journals, {name}", (run.stdout, run.stderr) == (b'{"order":' + out + b"}\n", b"")


def both(wrong, right):
    """What is said of the reply that the line of a deposit has, and of the site's own."""
    return "".join(f'  the {who} {{"kind":"deposit","name":"{name}"}}\n'
                   for who, name in (("line has the reply", wrong), ("site replies  ", right)))


def refused_journals(sites):
    """Journals that a site doesn't go on from, each of which is left as it was."""
    journal = stored("site_deposit.site.journal")
    first, rest = journal.split(b"\n", 1)
    rest = b"\n" + rest
    foreign = {
        "with another start": (first.replace(b'["ann",0]', b'["ann",1]') + rest, "has another list of accounts"),
        "with one account more": (first.replace(b',0]]', b',0],["bob",0]]') + rest, "has another list of accounts"),
        "with another limit": (first.replace(b'"blue":1000000', b'"blue":999999') + rest, "has another limit"),
        "of version 2": (first.replace(b'"version":1', b'"version":2') + rest, "has another version"),
        "of three sites, with another limit": (
            first.replace(b'"sites":2', b'"sites":3').replace(b'"red":1000000', b'"red":9') + rest,
            "has another number of sites, another limit"),
        "with a space": (first.replace(b",", b", ", 1) + rest, "has another spelling"),
        "whose first line is cut": (first[:40], "is no configuration"),
        "whose first line has no end": (first, "has another spelling"),
        "that is another file": (b"some notes\nof mine\n", "is no configuration"),
        "that begins with a line feed": (b"\n" + journal, "is no configuration"),
        "of bytes": (bytes(range(33, 256)) * 40, "is no configuration"),
    }
    for name, (before, reason) in foreign.items():
        wanted = (b"", f"rbbank: another bank's journal\n  its first line {reason}\n", 2, before)
        yield f"a journal {name}", sites.run(BANK, before) == wanted
    rest = rest[1:]
    lines = rest.strip(b" ").splitlines(keepends=True)
    asked = lines[0].replace(b',"reply"', b',"id":"a","reply"')
    bad = {
        "a bad line": (lines[0] + b'{"event":{"balance":"ann"}}\n', 3, "bad line", """\
  column 27: the key "reply" of an entry is missing
  {"event":{"balance":"ann"}}
                            ^
"""),
        "an entry of another site": (lines[0] + lines[1].replace(b'"site":0', b'"site":1'), 3, "bad line",
                                     "  it is an entry of site 1, and this is site 0\n"),
        "an id twice": (asked + asked.replace(b"B0.1", b"B0.2"), 3, "bad line", "  an entry before it has its id\n"),
        "an entry with a space": (lines[0].replace(b",", b", ", 1) + lines[1], 2, "bad line",
                                  "  the site writes this entry with another spelling\n"),
        "a wrong reply": (lines[0].replace(b"B0.1", b"B0.2") + lines[1], 2, "wrong reply", both("B0.2", "B0.1")),
        "an entry left out": (lines[1], 2, "wrong reply", """\
  the line has the reply {"balance":500}
  the site replies   {"balance":0}
"""),
        "an entry that is there twice": (lines[0] + lines[0], 3, "wrong reply", both("B0.1", "B0.2")),
    }
    for name, (text, number, fault, reason) in bad.items():
        before = first + b"\n" + text + AT_REST
        wanted = (b"", f"rbbank: journal line {number}: {fault}\n{reason}", 2, before)
        yield f"a journal with {name}", sites.run(BANK, before) == wanted
    yield from damaged_journals(sites, first, *lines)
    torn_too = first + b"\n" + bad["a wrong reply"][0] + b"{torn"
    wanted = (b"", "rbbank: journal line 2: wrong reply\n" + both("B0.2", "B0.1"), 2, torn_too)
    yield "a journal with a wrong reply and a torn end", sites.run(BANK, torn_too) == wanted


def damaged_journals(sites, first, one, two):
    """Journals with a byte that no crash leaves where a line or the gate should begin."""
    damaged = {
        "a blank line": (one + b"\n" + two + AT_REST, 3),
        "a blank line behind its first": (b"\n" + one + two + AT_REST, 2),
        "a byte before a line": (one + b"\xef" + two + AT_REST, 3),
        "another first byte of a line": (one + b"[" + two[1:] + AT_REST, 3),
        "another byte for its gate": (one + two + b"\r", 4),
        "a line feed behind its lines": (one + two + b"\n", 4),
        "notes behind its lines": (one + two + b"some notes\nof mine\n", 4),
    }
    for name, (text, number) in damaged.items():
        before = first + b"\n" + text
        wanted = (b"", f"rbbank: journal line {number}: damaged\n", 2, before)
        yield f"a journal with {name}", sites.run(BANK, before) == wanted
    # A new journal may have a gate and as many bytes as its first line; a file that has more is somebody's.
    for name, before in [("a space", b" " + b"x" * (len(first) + 2)), ("a NUL", bytes(len(first) + 3)),
                         ("a space, with lines behind it", b" \n" + first + b"\n" + one + two)]:
        wanted = (b"", "rbbank: journal line 1: damaged\n", 2, before)
        yield f"a file that begins with {name}", sites.run(BANK, before) == wanted
    before = first + b"\n" + two + b"\n" + one
    replies = '  the line has the reply {"balance":500}\n  the site replies   {"balance":0}\n'
    wanted = (b"", "rbbank: journal line 2: wrong reply\n" + replies, 2, before)
    yield "a journal with a wrong reply before a blank line", sites.run(BANK, before) == wanted


def unchanged(sites):
    """A start that is refused leaves its file, and the time at which that was written, whatever is in it."""
    journal = stored("site_deposit.site.journal")
    first, one, two = whole_lines(journal).splitlines(keepends=True)
    files = {
        "another file": (bytes(range(33, 256)) * 10_000, {}, 2),
        "another configuration's": (journal, {"bank": BANK.replace(b'["ann",0]', b'["ann",1]')}, 2),
        "another site's": (journal, {"me": 1}, 2),
        "one of no such site": (journal, {"me": 2}, 2),
        "one with a bad line": (first + b'{"a":1}\n' + AT_REST, {}, 2),
        "one with a wrong reply": (first + two + AT_REST, {}, 2),
        "a damaged one": (first + one + two + b"x", {}, 2),
        "a sealed one": (journal[:-1] + b"\t", {}, 2),
        "one for a bad configuration": (journal, {"bank": BALANCE}, 2),
        "one for no configuration": (journal, {"bank": b""}, 2),
        "one where a new one is asked for": (journal, {"new": True}, 2),
    }
    for what, (before, words, wanted) in files.items():
        given = words.pop("bank", BANK)
        for limit in [None, 0]:
            with tempfile.TemporaryDirectory() as folder:
                name = os.path.join(folder, "journal")
                write(name, before)
                os.utime(name, ns=(10**18, 10**18))
                out, errors, status = sites.at(name, given, limit, False, **words)
                fine = (out, status) == (b"", wanted) and errors and read(name) == before
                fine = fine and os.stat(name).st_mtime_ns == 10**18 and os.listdir(folder) == ["journal"]
                yield f"unchanged: {what}" + (", and can't be written" if limit == 0 else ""), fine
    with tempfile.TemporaryDirectory() as folder:
        name = os.path.join(folder, "journal")
        for what, before, wanted in [("sealed", journal[:-1] + b"\t", ("rbbank: journal is sealed\n", 2)),
                                     ("at rest", journal, journal_failed(name, errno.EACCES)[1:])]:
            write(name, before)
            os.chmod(name, 0o444)
            _, *ended = sites.at(name, BANK, resend=0, may_override=False)
            yield f"a journal that may only be read, {what}", tuple(ended) == wanted and read(name) == before
            os.chmod(name, 0o644)


def asked_for(sites):
    """A journal is new only where a new one is asked for; else it has to be there."""
    journal, out = stored("site_deposit.site.journal"), stored("site_deposit.site.expected")
    given = BANK + b'{"deposit":["ann",500]}\n' + BALANCE
    missing, there = "rbbank: no journal\n", "rbbank: there is a journal\n"
    yield "no journal, and no new one", sites.run(given, new=False) == (b"", missing, 2, None)
    yield "a new journal", sites.run(given, new=True) == (out, "", 0, journal)
    yield "a new journal over an empty file", sites.run(given, b"", new=True) == (out, "", 0, journal)
    yield "an empty file", sites.run(given, b"", new=False) == (out, "", 0, journal)
    for name, before in [("a journal", journal), ("a space", b" "), ("notes", b"some notes\n")]:
        yield f"a new journal over {name}", sites.run(given, before, new=True) == (b"", there, 2, before)
    with tempfile.TemporaryDirectory() as folder:
        name = os.path.join(folder, "journal")
        asked = [["--me", "0"], ["--journal", name], ["--new"], ["--resend", "7"], ["--record", "all"]]
        for words in itertools.permutations(asked):
            run = subprocess.run([sites.program, "site", *sum(words, [])], input=given, capture_output=True)
            yield f"words: site {' '.join(sum(words, []))}", (run.stdout, run.stderr, read(name)) == (out, b"", journal)
            os.remove(name)
        os.symlink(os.path.join(folder, "nowhere"), os.path.join(folder, "link"))
        fine = sites.at(os.path.join(folder, "link"), given, new=False) == (b"", missing, 2)
        yield "a link to no journal", fine and not os.path.exists(os.path.join(folder, "nowhere"))


def named(sites):
    """The journal is the file of that name, whichever standard streams are closed, and no other."""
    given = BANK + b'{"deposit":["ann",500]}\n'
    with tempfile.TemporaryDirectory() as folder:
        journal, link = os.path.join(folder, "journal"), os.path.join(folder, "link")
        words = " ".join(map(shlex.quote, sites.words(journal)))
        run = subprocess.run(["sh", "-c", f"{words} >&-"], input=given, capture_output=True)
        yield "a closed output", (run.stderr, run.returncode) == (b"rbbank: write failed\n", 3)
        before = read(journal)
        yield "... isn't the journal", whole_lines(before).count(b"\n") == 2 and b'"sends"' not in before
        words = " ".join(map(shlex.quote, sites.words(journal, new=False)))
        for redirection in ["1<>", "1>>", "0<", "0<>", "2<>", "2>>"]:
            run = subprocess.run(["sh", "-c", f"{words} {redirection} {shlex.quote(journal)}"], input=BANK,
                                 capture_output=True)
            why = f"rbbank: journal failed: {journal}: it is standard input or output\n" if redirection[0] < "2" else ""
            fine = (run.stdout, run.stderr.decode(), run.returncode) == (b"", why, 3)
            yield f"the journal as {redirection}", fine and read(journal) == before
        with open(os.path.join(folder, "said"), "wb") as said:
            runs = [subprocess.Popen(sites.words(f"{journal}{number}", new=True), stdin=subprocess.PIPE,
                                     stdout=subprocess.DEVNULL, stderr=said) for number in range(8)]
            fine = all(run.communicate(BANK) and run.returncode == 0 for run in runs)
        yield "sites with one standard error", fine and read(said.name) == b""
        target = os.path.join(folder, "far", "target")
        os.mkdir(os.path.dirname(target))
        os.symlink(target, link)
        fine = sites.at(link, BANK) == (b"", "", 0)
        yield "a link as journal", fine and read(target) == before.split(b"\n")[0] + b"\n" + AT_REST
    ways = {"removed": os.remove, "replaced": replaced, "cut": lambda path: os.truncate(path, 5), "grown": grown,
            "cut to its first line": lambda path: os.truncate(path, read(path).index(b"\n") + 1)}
    for name, change in ways.items():
        with tempfile.TemporaryDirectory() as folder:
            journal = os.path.join(folder, "journal")
            run = subprocess.Popen(sites.words(journal), stdin=subprocess.PIPE, stdout=subprocess.PIPE,
                                   stderr=subprocess.PIPE)
            run.stdin.write(given)
            run.stdin.flush()
            run.stdout.readline()
            change(journal)
            out, errors = run.communicate(b'{"deposit":["ann",1]}\n')
            fine = out == b"" and errors.startswith(b"rbbank: journal failed") and run.returncode == 3
            yield f"a journal that is {name}", fine


def replaced(path):
    """Gives the name to a copy of its file."""
    shutil.copy(path, path + ".copy")
    os.replace(path + ".copy", path)


def grown(path):
    """Adds to a file."""
    with open(path, "ab") as file:
        file.write(b"more")


def not_ready(sites):
    """An input that isn't ready is waited for, and an output, and no answer is lost."""
    with tempfile.TemporaryDirectory() as folder:
        here, there = os.pipe()
        os.set_blocking(here, False)
        run = subprocess.Popen(sites.words(os.path.join(folder, "journal")), stdin=here, stdout=subprocess.PIPE,
                               stderr=subprocess.PIPE)
        os.close(here)
        with os.fdopen(there, "wb", buffering=0) as writer:
            for line in [BANK, b'{"deposit":["ann",500]}\n', BALANCE]:
                time.sleep(0.3)
                if run.poll() is None:
                    writer.write(line)
        ended = *run.communicate(), run.returncode
        yield "an input that isn't ready", ended == (stored("site_deposit.site.expected"), b"", 0)
    given = BANK + b'{"balance":"ann"}\n' * 3000
    with tempfile.TemporaryDirectory() as folder:
        here, there = os.pipe()
        os.set_blocking(there, False)
        run = subprocess.Popen(sites.words(os.path.join(folder, "journal")), stdin=subprocess.PIPE, stdout=there)
        os.close(there)
        run.stdin.write(given)
        run.stdin.close()
        time.sleep(1)
        with os.fdopen(here, "rb") as reader:
            out = reader.read()
        yield "an output that isn't ready", run.wait() == 0 and out.count(b"\n") == 3000


def sealed(sites):
    """A sealed journal is closed by one byte, for ever: no site starts on it, and an audit reads it as before."""
    journal = stored("site_deposit.site.journal")
    after, refused = journal[:-1] + b"\t", (b"", "rbbank: journal is sealed\n", 2)
    with tempfile.TemporaryDirectory() as folder:
        name = os.path.join(folder, "journal")
        write(name, journal)
        for wanted in [(b"", "", 0), refused]:
            run = subprocess.run([*sites.words(name, new=False, record=None), "--seal"], stdin=subprocess.DEVNULL,
                                 capture_output=True)
            fine = (run.stdout, run.stderr.decode(), run.returncode) == wanted and read(name) == after
            yield "a journal is sealed" if wanted[2] == 0 else "... once", fine
        yield "no site starts on it", sites.at(name, BANK + BALANCE) == refused and read(name) == after
        yield "... nor anew", sites.at(name, BANK, new=True)[2] == 2 and read(name) == after
    run = subprocess.run([sites.program, "audit"], input=after, capture_output=True)
    yield "audit of a sealed journal", (run.stdout, run.stderr) == (b'{"order":[0,0]}\n', b"")


def used_twice(sites):
    """A second process on a journal is refused, and the first goes on. Once it has ended, another may begin."""
    with tempfile.TemporaryDirectory() as folder:
        journal = os.path.join(folder, "journal")
        first = subprocess.Popen(sites.words(journal), stdin=subprocess.PIPE, stdout=subprocess.PIPE)
        first.stdin.write(BANK + b'{"deposit":["ann",500]}\n')
        first.stdin.flush()
        out = first.stdout.readline()
        before = read(journal)
        second = sites.at(journal, BANK + BALANCE)
        yield "a second process", second == (b"", "rbbank: journal is in use\n", 2) and read(journal) == before
        rest, _ = first.communicate(BALANCE)
        fine = out + rest == stored("site_deposit.site.expected")
        yield "the first goes on", fine and read(journal) == stored("site_deposit.site.journal")
        yield "another behind it", sites.at(journal, BANK, resend=0) == (b"", "", 0)


def journal_failed(journal, why):
    """The end of a site whose journal failed for this reason of the system's."""
    return b"", f"rbbank: journal failed: {journal}: {os.strerror(why)} (os error {why})\n", 3


def failed(sites):
    """A journal that can't be opened, read or written: nothing more is answered, and what is on the disk stays."""
    with tempfile.TemporaryDirectory() as folder:
        yield "a folder as journal", sites.at(folder, BANK) == journal_failed(folder, errno.EISDIR)
        nowhere = os.path.join(folder, "no", "journal")
        yield "a journal in no folder", sites.at(nowhere, BANK) == journal_failed(nowhere, errno.ENOENT)
    full = b"", "rbbank: journal failed: /dev/full: it is no regular file\n", 3
    yield "a full device as journal", sites.at("/dev/full", BANK, memory=MEMORY) == full
    journal = stored("site_deposit.site.journal")
    deposits = BANK + b'{"deposit":["ann",1]}\n' * 40
    for more in [1, 2, 50, 500]:
        limit = len(journal) + more
        out, errors, status, after = sites.run(deposits, journal, limit, False, resend=0)
        why = "rbbank: journal failed: journal: File too large (os error 27)\n"
        fine = (out, errors, status) == (b"", why, 3) and after.startswith(journal[:-1])
        fine = fine and whole_lines(after) == journal[:-1]
        yield f"a disk with {more} bytes left", fine and sites.run(BANK, after, resend=0)[3] == journal
        *run, after = sites.run(deposits, journal, limit, True, resend=0)
        fine = run[0] == b"" and run[2] == -signal.SIGXFSZ and whole_lines(after) == journal[:-1]
        yield f"ended in a write after {more} bytes", fine and sites.run(BANK, after, resend=0)[3] == journal


def unwritten(sites):
    """Output that can't be written ends a site, whose journal is at rest, and has what wasn't reported."""
    given = BANK + b'{"deposit":["ann",500]}\n' + BALANCE
    wanted = (b"", "rbbank: write failed\n", 3, stored("site_deposit.site.journal"))
    with open("/dev/full", "wb") as full:
        yield "a full device as output", sites.run(given, output=full) == wanted
    read, write = os.pipe()
    os.close(read)
    with os.fdopen(write, "wb") as closed:
        yield "an output without a reader", sites.run(given, output=closed) == wanted


# Lines that are no events. What is wrong with the first ones is wrong with a script's command too; with the others only
# at a site, and this is said.
WRONG_EVENTS = (b'{"deposit":["ann",-5]}', b'{"deposit":["ann"]}', b'{"withdraw":["ann",1.5]}', b'{"cancel":"B1"}',
                b'{"interest":["ann",4294967296]}', b'{"batch":[{"deposit":["ann",true]}]}', b'{"pass":"1"}',
                b'{"balance":"ann","asof":["ann",1]}')
WRONG_LINES = {
    b"GET / HTTP/1.1": 'column 1: GET is no value: a text is between " and "',
    b'{"gift":1}': 'column 2: an event has no key "gift": there are: deposit, ',
    b'{"deposit":["ann",5],"site":0}': 'column 22: the events of a site have no "site"; ',
    b'{"deliver":1}': 'column 2: a site takes what another one sent: "shadow" or "token"',
    b'{"deposit":["ann",5],"bank":"b"}': "column 22: the bank of this site has no name: ",
    b'{"balance":"ann","id":"a"}': "column 1: an id is of a request or a batch, ",
    b'{"token":[1,0]}': "column 10: the token is a list of 3, and this has 2",
    b'{"resend":100000001}': "column 11: 100,000,001 is out of range: ",
    b'{"about":"me"}': 'column 10: "me" is nothing to ask about: ',
}


def reasons(sites):
    """The answer to a bad line says where it is wrong, and why: as a script does of the same command."""
    def why(line):
        return json.loads(sites.run(BANK + line + b"\n")[0])["why"]

    for event in WRONG_EVENTS:
        given = BANK + event[:-1] + b',"site":0}\n'
        said = subprocess.run([sites.program, "script"], input=given, capture_output=True).stderr
        found = why(event).replace("an event is one", "a command is one")
        yield f"why: {event.decode()}", found == said.split(b"\n")[1].strip().decode()
    for line, begins in WRONG_LINES.items():
        yield f"why: {line.decode()}", why(line).startswith(begins)


def no_events(sites):
    """A line that is no event, or too long, is answered by its number, records nothing and stops nothing."""
    journal, out = stored("site_deposit.site.journal"), stored("site_deposit.site.expected")
    first, last = out.splitlines(keepends=True)
    deposit = BANK + b'{"deposit":["ann",500]}\n'
    cases = {
        "a command with a site": (b'{"balance":"ann","site":0}\n', "line", 3),
        "a delivery": (b'{"deliver":1}\n', "line", 3),
        "a configuration again": (BANK, "line", 3),
        "no JSON": (b"GET / HTTP/1.1\n", "line", 3),
        "no UTF-8": (b'{"balance":"\xff"}\n', "line", 3),
        "blank lines before": (b"\n \n{}\n", "line", 5),
        "a line too long": (b" " * LINE_LIMIT + b"{}\n", "long", 3),
        "blanks too long": (b" " * (LINE_LIMIT + 1) + b"\n", "long", 3),
        "an event too long": (b'{"deposit":["ann",1]}'.ljust(LINE_LIMIT + 1) + b"\n", "long", 3),
        "a line of many reads": (b"x" * (20 * LINE_LIMIT) + b"\n", "long", 3),
    }
    for name, (given, why, number) in cases.items():
        wanted = first + b'{"bad":"%s","line":%d}\n' % (why.encode(), number) + last, "", 0, journal
        answer, *rest = sites.run(deposit + given + BALANCE)
        yield f"no event: {name}", (without_why(answer), *rest) == wanted
    for name, given, why in [("a bad line", b"{", b"line"), ("a line too long", b"x" * (3 * LINE_LIMIT), b"long")]:
        answer, *ended, _journal = sites.run(deposit + given)
        wanted = first + b'{"bad":"%s","line":3}\n' % why
        yield f"{name}, without its end", (without_why(answer), ended) == (wanted, ["", 0])
    given = b"".join(b'{"deposit":["ann",1]}\n{}\n' for _ in range(5_000))
    answer, errors, status, after = sites.run(BANK + given)
    numbers = [json.loads(line)["line"] for line in answer.splitlines() if b'"bad"' in line]
    fine = (errors, status, numbers) == ("", 0, list(range(3, 10_003, 2))) and answer.count(b"\n") == 10_000
    yield "every other line is no event", fine and after.count(b"\n") == 5_001
    longest = b'{"balance":"ann"}'.ljust(LINE_LIMIT) + b"\n"
    yield "the longest line", sites.run(deposit + longest) == (out, "", 0, journal)
    yield "no configuration", sites.run(b"\n")[:3] == (b"", "rbbank: no configuration\n", 2)
    bad = (b"", """\
rbbank: line 2: bad configuration
  column 1: the first line is the configuration, as {"accounts":[["ann",0]],"sites":2,"version":1}
  {"balance":"ann"}
  ^
""", 2)
    yield "a bad configuration", sites.run(b"\n" + BALANCE, journal)[:3] == bad
    yield "... leaves the journal", sites.run(b"\n" + BALANCE, journal)[3] == journal
    long = (b"", "rbbank: line 2: line too long\n", 2, journal)
    yield "a configuration too long", sites.run(b"\n" + BANK[:-1].ljust(LINE_LIMIT + 1) + b"\n", journal) == long


# The members of events that may have an id, each of which is made or refused alike whenever it is asked for.
ASKED = [compact(event)[1:-1].encode() for event in [
    *requests({"account": "bob", "to": "ann", "cents": 70, "rate": 4_294_967_295, "name": "R1"}),
    {"batch": [{"deposit": ["ann", 500]}, {"cancel": "B1.1"}]}]]
IDS = [b"a", b"AZaz09._:-", b"0", b"x" * 64]
# Lines of events whose id is none, or that may have none.
NO_IDS = """{"deposit":["ann",1],"id":""}
{"deposit":["ann",1],"id":"%s"}
{"deposit":["ann",1],"id":"a b"}
{"deposit":["ann",1],"id":"é"}
{"deposit":["ann",1],"id":"a/b"}
{"deposit":["ann",1],"id":7}
{"deposit":["ann",1],"id":null}
{"deposit":["ann",1],"id":["a"]}
{"deposit":["ann",1],"id":"a","site":0}
{"batch":[{"deposit":["ann",1],"id":"a"}]}
{"id":"a"}
{"apply":"B1.1","id":"a"}
{"asof":["ann",0],"id":"a"}
{"balance":"ann","id":"a"}
{"id":"a","pass":1}
{"id":"a","shadow":{"account":"ann","amount":5,"deps":[[0,0,0,0,0,0,0,0],0],"home":0,"kind":"deposit","name":"B0.1"}}
{"id":"a","statement":"ann"}
{"id":"a","token":[1,0,0]}
""" % ("x" * 65)


def ids(sites):
    """An id is in front of its event, behind it or with spaces: a made one is answered again, and a refused one alike.
    What is no id is no event."""
    bank = b'{"accounts":[["ann",0],["bob",700]],"sites":2,"version":1}\n'
    for event, name in itertools.product(ASKED, IDS):
        spellings = [b'{%s,"id":"%s"}\n', b'{"id":"%s",%s}\n', b' { "id" : "%s" , %s } \n']
        given = b"".join(line % ((event, name) if n == 0 else (name, event)) for n, line in enumerate(spellings))
        out, errors, status, _journal = sites.run(bank + given)
        lines = out.splitlines()
        fine = (errors, status, len(lines)) == ("", 0, 3) and lines[0].startswith(b'{"id":"%s","reply":' % name)
        again = lines[0] if b'"refused"' in lines[0] else b'{"again":true,' + lines[0][1:]
        yield f"id {name.decode()} of {event.decode()}", fine and lines[1:] == [again, again]
    lines = NO_IDS.encode().splitlines(keepends=True)
    out, errors, status, journal = sites.run(BANK + b"".join(lines))
    bad = b"".join(b'{"bad":"line","line":%d}\n' % (2 + n) for n in range(len(lines)))
    yield "what is no id", (without_why(out), errors, status) == (bad, "", 0) and entries(journal) == b""


def options(sites):
    """The file is that of the option's text, whatever it begins with, and changes alone are recorded unless all events
    are asked for."""
    bank = b'{"accounts":[["ann",0]],"sites":16,"version":2}\n'
    for words, journal, recorded in [
            ("--me 15 --journal j --new", "j", 0), ("--resend=0 --new --journal=-j --me=15", "-j", 0),
            ("--new --me=15 --journal=new --record changes", "new", 0),
            ("--record=all --me=15 --journal j --new", "j", 1),
            ("--journal - --resend 100000000 --new --me 15 --record all", "-", 1)]:
        with tempfile.TemporaryDirectory() as folder:
            run = subprocess.run([sites.program, "site", *words.split()], input=bank + BALANCE, capture_output=True,
                                 cwd=folder)
            fine = (run.stderr, run.returncode, os.listdir(folder)) == (b"", 0, [journal])
            lines = entries(read(os.path.join(folder, journal))).count(b"\n") if fine else None
        yield f"options: {words}", lines == recorded


def words_at_fault(sites):
    """Words that aren't those of a site: a text on standard error, status 2, and no file."""
    wanted = [[], ["--me", "0"], ["--journal", "j"], ["--me", "16", "--journal", "j"], ["--me", "-1", "--journal", "j"],
              ["--me", "x", "--journal", "j"], ["--me", "0", "--journal", "j", "--resend", "100000001"],
              ["--me", "0", "--journal", "j", "--resend", "all"], ["--me", "0", "--journal", "j", "more"],
              ["--me", "0", "--journal", "j", "--new=j"], ["--me", "0", "--journal", "--new"], ["--new", "--me", "0"],
              ["--me", "0", "--journal", "j", "--new", "--new"]]
    with tempfile.TemporaryDirectory() as folder:
        for words in wanted:
            run = subprocess.run([sites.program, "site", *words], input=BANK, capture_output=True, cwd=folder)
            fine = (run.stdout, run.returncode) == (b"", 2) and run.stderr != b"" and os.listdir(folder) == []
            yield f"words: site {' '.join(words)}", fine


def many_sites(sites):
    """The last of sixteen sites, whose lines are those of version 2."""
    bank = b'{"accounts":[["ann",0]],"sites":16,"version":2}\n'
    shadow = b'{"shadow":{"account":"ann","amount":500,"deps":[[],0],"home":15,"kind":"deposit","name":"B15.1"}}'
    out = b'{"reply":{"kind":"deposit","name":"B15.1"},"sends":[' + shadow + b'],"then":[]}\n'
    answer = sites.run(bank + b'{"deposit":["ann",500]}\n', me=15)
    yield "the last of sixteen sites", answer[:3] == (out, "", 0)


def large_batch(sites):
    """Many lines in one read are answered as a script answers them, and one entry each is in the journal."""
    count = 20_000
    given = BANK + b'{"deposit":["ann",1]}\n' * count + BALANCE
    out, errors, status, journal = sites.run(given)
    last = b'{"reply":{"balance":%d},"sends":[],"then":[]}' % count
    fine = (errors, status) == ("", 0) and out.splitlines()[-1] == last and out.count(b"\n") == count + 1
    yield "many lines at once", fine and journal.count(b"\n") == count + 2 and journal.endswith(b"\n ")


def large_answers(sites):
    """Many large answers in one read take no more memory than a few: each batch of them is put out before the next."""
    deposits, statements = 4_000, 250
    given = BANK + b'{"deposit":["ann",1]}\n' * deposits
    with tempfile.TemporaryDirectory() as folder:
        journal = os.path.join(folder, "journal")
        _, errors, status = sites.at(journal, given)
        before = read(journal)
        out, *ended = sites.at(journal, BANK + b'{"statement":"ann"}\n' * statements, memory=LITTLE_MEMORY, resend=0)
        after = read(journal)
        fine = (errors, status, ended) == ("", 0, ["", 0]) and out.count(b"\n") == statements
        yield "many large answers at once", fine and len(set(out.splitlines())) == 1 and len(out) > LITTLE_MEMORY // 2
        fine = after.startswith(before[:-1]) and after.count(b"\n") == 1 + deposits + statements
        yield "... and their entries", fine and after.endswith(b"\n ")


def calls_of(sites, given, before, record="all"):
    """The calls of a site on its journal and its output, in order, each with what is behind its file: writes, cuts,
    syncs and output, as strace sees them."""
    with tempfile.TemporaryDirectory() as folder:
        journal, trace = os.path.join(folder, "journal"), os.path.join(folder, "trace")
        write(journal, before)
        watched = "trace=pwrite64,write,writev,fdatasync,fsync,ftruncate"
        words = ["strace", "-f", "-s", "8", "-e", watched, "-o", trace]
        words += sites.words(journal, resend=0, record=record)
        run = subprocess.run(words, input=given, capture_output=True, timeout=60)
        lines = read(trace).decode() if run.returncode == 0 else ""
    found = re.findall(r"(pwrite64|write|fdatasync|fsync|ftruncate)v?\((\d+)(.*)\) += \d+", lines)
    return [(call, rest) for call, fd, rest in found if call != "write" or fd == "1"]


def in_order(sites):
    """A batch is on the disk before its first byte is written, and that byte before anything is reported. No kill can
    show it, since what was written outlives the process; the calls do."""
    if shutil.which("strace") is None:
        yield "strace is missing (Debian: apt-get install strace)", False
        return
    journal = stored("site_deposit.site.journal")
    for name, before in [("a journal at rest", journal), ("a torn journal", journal[:-20]), ("a new journal", b"")]:
        calls = calls_of(sites, BANK + b'{"deposit":["ann",500]}\n' + BALANCE, before)
        yield f"calls on {name}", is_in_order(calls)
    none, asked, made = (calls_of(sites, BANK + lines, journal, record=None) for lines in (
        b"", BALANCE * 3, b'{"deposit":["ann",500]}\n' * 2))
    yield "lines that add nothing wait for no disk", asked[:-1] == none and asked[-1][0] == "write"
    more = [call for call, _rest in made[len(none):]]
    yield "a batch waits for the disk twice", made[:len(none)] == none and more.count("fdatasync") == 2


def is_in_order(calls):
    """Whether each sync comes before what rests on it, for one batch whose output is the last call."""
    unsynced = opened = False
    for call, rest in calls:
        first_byte = call == "pwrite64" and rest.startswith(', "{", 1,')
        if unsynced and (first_byte or call == "write") or call == "write" and not opened:
            return False
        unsynced = call in ("pwrite64", "ftruncate")
        opened = first_byte if call == "pwrite64" else opened
    return calls != [] and calls[-1][0] == "write"


def of_the_page(sites):
    """The pipes of docs/RUNNING.md, pasted into a shell, print what the page says."""
    with open(os.path.join(ROOT, "docs", "RUNNING.md"), encoding="utf-8") as page:
        blocks = re.findall(r"(?:^    .*\n)+", page.read(), flags=re.M)
    at = next(n for n, block in enumerate(blocks) if block.startswith("    mkfifo "))
    given, out = (re.sub("(?m)^    ", "", block) for block in blocks[at:at + 2])
    if shutil.which("bash") is None:
        return
    # As in an interactive shell, each job is a process group of its own, which `kill %1` ends. A loaded machine gets
    # longer pauses than the page has.
    for seconds in (1, 4, 16):
        script = f"set -m; trap 'kill %1 %2' EXIT; sleep() {{ command sleep {seconds}; }}\n" + given
        with tempfile.TemporaryDirectory() as folder:
            os.symlink(sites.program, os.path.join(folder, "rbbank"))
            os.symlink(os.path.join(EXAMPLES, "tools", "wire.py"), os.path.join(folder, "rbbank-wire"))
            path = os.pathsep.join([folder, os.environ["PATH"]])
            run = subprocess.run(["timeout", "120", "bash", "-c", script], cwd=folder, stdout=subprocess.PIPE,
                                 stderr=subprocess.DEVNULL, env={**os.environ, "PATH": path})
        if run.stdout.decode() == out:
            break
    yield "the pipes of docs/RUNNING.md", run.stdout.decode() == out


def of_the_tutorial(sites):
    """The deposit of docs/TUTORIAL.md that is asked for again by its id is answered after a crash as the page says."""
    with open(os.path.join(ROOT, "docs", "TUTORIAL.md"), encoding="utf-8") as page:
        section = page.read().split("\n## 8. ")[1].split("\n## ")[0]
    request, words, answer, *_ = re.findall(r"(?m)^    (.*)$", section)
    with tempfile.TemporaryDirectory() as folder:
        os.symlink(sites.program, os.path.join(folder, "rbbank"))
        given = f'{{"accounts":[["ann",0]],"sites":2,"version":1}}\n{request}\n'
        runs = [subprocess.run(["sh", "-c", f"PATH={folder}; {words}{new}"], cwd=folder, input=given, text=True,
                               capture_output=True) for new in (" --new", "")]
    first, again = (run.stdout.splitlines()[-1:] for run in runs)
    yield "a deposit of docs/TUTORIAL.md, again", again == [answer] and first == [answer.replace('"again":true,', "")]


PARTS = [of_the_tutorial, same_however_read, ready_at_once, torn, kept, kept_nowhere, longest_name, audited, asked_for,
         refused_journals, unchanged, named, not_ready, sealed, used_twice, failed, unwritten, no_events, ids, options,
         words_at_fault, many_sites, large_batch, large_answers, in_order, of_the_page, reasons]


def results(program):
    """Each case with whether it is as wanted."""
    return report.of_parts(PARTS, lambda: Sites(program))


if __name__ == "__main__":
    sys.exit(report.run(__doc__, results))
