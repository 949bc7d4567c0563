#!/usr/bin/env python3
"""Measures `rbbank site`: events a second by lines a read, on a disk and in memory; bytes of the journal; how long a
start takes beside an audit of the same journal; instructions an event beside the same commands in a script; and the
memory of an id.

README.md says what each number is.
"""
import argparse
import os
import shutil
import subprocess
import sys
import tempfile
import time

sys.dont_write_bytecode = True
import measure
import run
from measure import seconds, written

BANK = '{"accounts":[["a0",1000]],"sites":2,"version":1}\n'
RECEIVED = (
    '{{"shadow":{{"account":"a0","amount":5,"deps":[[0,{before},0,0,0,0,0,0],0],"home":1,'
    '"kind":"deposit","name":"B1.{n}"}}}}\n'
)
KINDS = {
    "balance": lambda n: '{"balance":"a0"}\n',
    "deposit": lambda n: '{"deposit":["a0",5]}\n',
    "deposit-by-id": lambda n: f'{{"deposit":["a0",5],"id":"order-{n:07}"}}\n',
    "receive": lambda n: RECEIVED.format(before=n - 1, n=n),
    "receive-of-a-bank": lambda n: '{"bank":"0001",' + RECEIVED.format(before=n - 1, n=n)[1:],
}
# How many lines a client gives at once before it waits for their answers, and how many in all. None: all at once.
READS = [(1, 2_000), (64, 50_000), (1_000, 100_000), (None, 200_000)]
COUNTED = 2_000  # events whose instructions are counted


def events(kind, count):
    """So many lines of a kind."""
    return [KINDS[kind](n) for n in range(1, count + 1)]


def script(kind, count):
    """The lines of a script that has the same done at site 0. What is received has to be made first, at site 1."""
    if kind == "deposit-by-id":
        return script("deposit", count)
    if kind == "receive-of-a-bank":
        return script("receive", count)
    if kind != "receive":
        return [line.replace("}\n", ',"site":0}\n') for line in events(kind, count)]
    comes = [f'{{"deliver":{n},"site":0}}\n{{"apply":"B1.{n}","site":0}}\n' for n in range(1, count + 1)]
    return made(count) + comes


def made(count):
    return ['{"deposit":["a0",5],"site":1}\n'] * count


def words(program, journal, kind):
    new = [] if os.path.exists(journal) else ["--new"]
    named = ["--bank", "0001"] if kind.endswith("-of-a-bank") else []
    return [program, "site", "--me", "0", "--journal", journal, *new, *named, "--resend", "0"]


def by_turns(command, lines, at_once):
    """Seconds that a client takes that gives this number of lines at once, and then waits for their answers."""
    site = subprocess.Popen(command, stdin=subprocess.PIPE, stdout=subprocess.PIPE, bufsize=0)
    parts = ["".join(lines[n:n + at_once]).encode() for n in range(0, len(lines), at_once)]
    site.stdin.write(BANK.encode() + parts[0])
    wait_for(site, parts[0])
    begun = time.perf_counter()
    for part in parts[1:]:
        site.stdin.write(part)
        wait_for(site, part)
    taken = time.perf_counter() - begun
    site.stdin.close()
    ended(site)
    return taken / (len(parts) - 1) / at_once


def wait_for(site, part):
    """Reads an answer for each line."""
    left = part.count(b"\n")
    while left:
        data = os.read(site.stdout.fileno(), 1 << 20)
        if not data:
            raise SystemExit("the site ended before it had answered")
        left -= data.count(b"\n")


def ended(process):
    if process.wait() != 0:
        raise SystemExit(f"{' '.join(process.args)}: status {process.returncode}")


def at_once(program, kind, lines, folder):
    """Seconds an event of a site that reads a file of these lines, less those of a site that reads none."""
    some, none = (words(program, os.path.join(folder, name), kind) for name in ("some", "none"))
    return (from_file(some, lines, folder) - from_file(none, [], folder)) / len(lines)


def from_file(command, lines, folder):
    """Seconds of a site that reads a file."""
    return seconds(command, written(folder, [BANK, *lines]))


def rate(program, place, kind, lines_a_read, count, runs):
    """Events a second of the best of some runs."""
    best, lines = None, events(kind, count)
    for _ in range(runs):
        with tempfile.TemporaryDirectory(dir=place) as folder:
            if lines_a_read is None:
                taken = at_once(program, kind, lines, folder)
            else:
                taken = by_turns(words(program, os.path.join(folder, "journal"), kind), lines, lines_a_read)
            best = taken if best is None else min(best, taken)
    return 1 / best


def entry_bytes(program, kind):
    """Bytes of the journal for an event: of its entry, and of that of what was applied behind it."""
    with tempfile.TemporaryDirectory() as folder:
        sizes = []
        for count in (1_000, 2_000):
            journal = os.path.join(folder, f"journal{count}")
            from_file(words(program, journal, kind), events(kind, count), folder)
            sizes.append(os.path.getsize(journal))
        return (sizes[1] - sizes[0]) / 1_000


def site_instructions(program, kind, folder):
    """Instructions an event of a site, all lines in few reads."""
    counts = []
    for name, lines in [("some", events(kind, COUNTED)), ("none", [])]:
        path, journal = written(folder, [BANK, *lines]), os.path.join(folder, f"{kind}-{name}")
        counts.append(measure.instructions(program, "site", path, *words(program, journal, kind)[2:]))
    return None if None in counts else (counts[0] - counts[1]) / COUNTED


def script_instructions(program, kind, folder):
    """Instructions of the same in a script, less those of a script that only makes what is received."""
    before = made(COUNTED) if kind == "receive" else []
    counts = [measure.instructions(program, "script", written(folder, [BANK, *lines]))
              for lines in (script(kind, COUNTED), before)]
    return None if None in counts else (counts[0] - counts[1]) / COUNTED


def table(head, rows):
    print("|", " | ".join(head), "|\n|" + "---|" * len(head))
    for row in rows:
        print("|", " | ".join(row), "|", flush=True)
    print()


def rates(asked):
    """A row for each kind and each number of lines a read."""
    for kind in asked.kinds:
        for lines_a_read, count in READS:
            found = [rate(asked.program, place, kind, lines_a_read, count, asked.runs)
                     for place in (asked.disk, asked.memory)]
            yield [kind, str(lines_a_read or "all"), *(f"{each:,.0f}" for each in found)]


def costs(asked):
    """A row for each kind: bytes, and instructions where valgrind is there."""
    for kind in asked.kinds:
        cells = [kind, f"{entry_bytes(asked.program, kind):.0f}"]
        if shutil.which("valgrind"):
            with tempfile.TemporaryDirectory(dir=asked.memory) as folder:
                site, same = (count(asked.program, kind, folder) for count in (site_instructions, script_instructions))
            cells += [f"{site:,.0f}", f"{same:,.0f}", f"{site - same:,.0f}"] if site and same else ["", "", ""]
        yield cells + [""] * (5 - len(cells))


def restarts(asked):
    """A row for deposits without ids and one with: a journal of that number of entries, started again and audited."""
    for kind in ("deposit", "deposit-by-id"):
        with tempfile.TemporaryDirectory(dir=asked.memory) as folder:
            journal = os.path.join(folder, "journal")
            from_file(words(asked.program, journal, kind), events(kind, asked.entries), folder)
            nothing = written(folder, [BANK])
            # By turns, so that other work on the machine meets all of them.
            start = words(asked.program, journal, kind)
            runs = [(start, nothing), (start[:-2], nothing), ([asked.program, "audit"], journal)]
            rounds = [[seconds(*each) for each in runs] for _ in range(asked.runs)]
            best = [min(each) for each in zip(*rounds)]
        yield [kind, f"{asked.entries:,}", *(f"{each:.2f}" for each in [*best, best[0] / best[2]])]


def most_memory(command, path):
    """The most bytes that a command has in memory at once. A small interpreter starts it: a process counts for its own
    what the one that started it has."""
    code = ("import os, subprocess, sys\n"
            "child = subprocess.Popen(sys.argv[2:], stdin=open(sys.argv[1], 'rb'), stdout=subprocess.DEVNULL)\n"
            "print(os.wait4(child.pid, 0)[2].ru_maxrss * 1024)")
    return int(subprocess.check_output([sys.executable, "-c", code, path, *command]))


def memory(asked):
    """A row: bytes of memory an event without an id and with one, and bytes an id, its text of 13 bytes too."""
    count, taken = 200_000, []
    for kind in ("deposit", "deposit-by-id"):
        with tempfile.TemporaryDirectory(dir=asked.memory) as folder:
            path = written(folder, [BANK, *events(kind, count)])
            taken.append(most_memory(words(asked.program, os.path.join(folder, "journal"), kind), path) / count)
    yield [f"{count:,}", f"{taken[0]:.0f}", f"{taken[1]:.0f}", f"{taken[1] - taken[0]:.0f}"]


def options():
    reader = argparse.ArgumentParser(description=__doc__)
    reader.add_argument("program", nargs="?", help="a built rbbank; without it, `make build` makes it")
    reader.add_argument("--kinds", default=",".join(KINDS), help=f"of {', '.join(KINDS)}")
    reader.add_argument("--runs", type=int, default=3, help="runs, of which the best counts")
    reader.add_argument("--entries", type=int, default=1_000_000, help="of the journal that is started again")
    reader.add_argument("--disk", default=tempfile.gettempdir(), help="a folder on a disk")
    reader.add_argument("--memory", default="/dev/shm", help="a folder in memory")
    asked = reader.parse_args()
    asked.kinds = asked.kinds.split(",")
    if not KINDS.keys() >= set(asked.kinds):
        reader.error(f"the kinds are {', '.join(KINDS)}")
    for place in (asked.disk, asked.memory):
        if not os.path.isdir(place):
            reader.error(f"{place}: no folder")
    if asked.program and not os.access(asked.program, os.X_OK):
        reader.error(f"{asked.program}: no program")
    asked.program = os.path.abspath(asked.program) if asked.program else run.built()
    return asked


def main():
    asked = options()
    table(["Kind", "Lines a read", "Events a second, disk", "Events a second, memory"], rates(asked))
    table(["Kind", "Journal's bytes an event", "Instructions an event", "In a script", "More"], costs(asked))
    head = ["Kind", "Entries", "Start, s", "Start that sends all again, s", "Audit, s", "Start by audit"]
    table(head, restarts(asked))
    table(["Events", "Bytes of memory an event", "By an id", "An id"], memory(asked))


if __name__ == "__main__":
    try:
        main()
    except KeyboardInterrupt:
        sys.exit(130)
