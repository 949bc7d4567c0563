#!/usr/bin/env python3
"""Measures rbbank beside bench/plain on inputs that take long, or much memory, and prints a table, a row a number.

README.md says what each kind is. Both are given the same script, and have to answer alike, unless the row names
something else. What a command takes is that of the last commands: the script without them is taken off.
"""
import argparse
import datetime
import json
import os
import random
import runpy
import subprocess
import sys
import tempfile
import types

sys.dont_write_bytecode = True
import compare
import kinds
import measure
import run
import threads

FOLDER = os.path.dirname(os.path.abspath(__file__))
# By its path, since Python has a module of this name.
SITE = types.SimpleNamespace(**runpy.run_path(os.path.join(FOLDER, "site.py")))
HEAD = ["Kind", "What", "rbbank", "Plain", "Ratio"]
FORGED = ('{{"shadow":{{"account":"a0","amount":1,"deps":[[0,1000000,0,0,0,0,0,0],{before}],"home":1,"kind":"withdraw",'
          '"name":"R{n}"}}}}')
DEPOSIT, WITHDRAWAL = kinds.deposit("a0", 5), kinds.withdraw("a0", 1)


def bank(accounts=1, start=0):
    return json.dumps({"accounts": [[f"a{place}", start] for place in range(accounts)], "sites": 2, "version": 1})


def asof_busy(deposits, asked):
    """Deposits on one of 1,000 accounts, and then its balance as of any position."""
    pick = kinds.picker(1)
    return [bank(1000)] + [DEPOSIT] * deposits, [kinds.asof("a0", pick(deposits + 1)) for _ in range(asked)]


def inbox(rounds, in_any_order):
    """Rounds of one deposit more than an inbox holds. The second comes first, and then come the others backwards, or
    all in any order. The first comes last, and then all are applied."""
    count, uniform, last = kinds.DEPTH + 1, random.Random(1).random, []
    for first in range(1, rounds * count, count):
        numbers = range(first, first + count)
        others = sorted(numbers[1:], key=lambda _: uniform()) if in_any_order else [numbers[1], *numbers[:1:-1]]
        last += [kinds.deliver(number) for number in [*others, first]]
        last += [kinds.apply(f"B0.{number}") for number in numbers]
    return [bank()] + [DEPOSIT] * (rounds * count), last


# Each with the sizes at which instructions are counted, and those that are timed.
LAST = {"asof-busy": (asof_busy, (20_000, 2_000), (300_000, 100_000)),
        "inbox-first-held": (inbox, (1, False), (50, False)), "inbox-random": (inbox, (1, True), (50, True))}


def write(folder, lines):
    """A file of these lines, in a folder of its own."""
    return measure.written(tempfile.mkdtemp(dir=folder), (line + "\n" for line in lines))


def checked(programs, path):
    """The path of a script that the programs answer alike."""
    line = compare.difference(programs, "script", path)
    return path if line is None else sys.exit(f"line {line} of the answers differs")


def usage(*given):
    """Seconds of processor time, and the peak of memory."""
    return measure.usage(*given) or sys.exit(f"over {measure.LIMIT} s")


def timed(programs, paths, runs):
    """Nanoseconds of processor time of each script by each program."""
    return {place: used and used[0] * 1e9 for place, used in compare.least(programs, "script", paths, runs).items()}


def each(numbers, program, count):
    """What each of so many commands takes, by the numbers with them, 1, and without them, 0."""
    more = compare.over_none(numbers, program, 1)
    return None if more is None else more / count


def of_last(kind, programs, folder, given):
    make, *both = LAST[kind]
    for what, sizes in zip(("instructions", "ns"), both):
        before, last = make(*sizes)
        paths = {0: write(folder, before), 1: checked(programs, write(folder, before + last))}
        counts = what == "instructions"
        found = compare.counted(programs, "script", paths) if counts else timed(programs, paths, given.runs)
        row = f"{what} a command, of {len(last):,} after {len(before) - 1:,}"
        yield row, *(each(found, program, len(last)) for program in programs)


def whole(programs, path, runs):
    """What a whole run of a script takes."""
    best = compare.least(programs, "script", {1: checked(programs, path)}, runs)
    for at, what, unit in ((0, "processor time, ms", 1e-3), (1, "peak memory, MB", 1e6)):
        yield what, *(best[it, 1] and best[it, 1][at] / unit for it in programs)


def small(kind, programs, folder, given):
    path = run.script(folder, {"small-16": "mix-16", "small-3": "mix"}[kind], 10_000, 1)
    yield from whole(programs, path, 10 * given.runs)
    yield "instructions", *(measure.instructions(it, "script", path) for it in programs)
    yield "page faults", *(measure.counts(it, "script", path).ru_minflt for it in programs)
    yield "mmaps", *(measure.calls(it, "script", path, "mmap") for it in programs)


def statements(_kind, programs, folder, given):
    lines = [bank()] + [DEPOSIT] * given.entries + [kinds.statement("a0")] * 3
    return whole(programs, write(folder, lines), given.runs)


def at_site(program, folder, before, last, runs):
    """Instructions and nanoseconds of each of the last events that a new site is given."""
    counts, times = {}, {}
    paths = [write(folder, lines) for lines in (before, before + last)]
    for measured in [measure.instructions] + [usage] * runs:
        for key, path in enumerate(paths):
            journal = os.path.join(tempfile.mkdtemp(dir=folder), "journal")
            found = measured(program, "site", path, *SITE.words(program, journal, "withdraw")[2:])
            if measured is usage:
                times[program, key] = min(found[0] * 1e9, times.get((program, key), found[0] * 1e9))
            else:
                counts[program, key] = found
    return [each(numbers, program, len(last)) for numbers in (counts, times)]


def neighbour(_kind, programs, folder, given):
    """Withdrawals at a site that holds forged ones, whose past never comes. bench/plain can't be given these."""
    count, start, plain = kinds.DEPTH, [bank(start=kinds.RICH)], programs[1:]
    forged = [FORGED.format(n=n, before=n - 1) for n in range(2, count + 2)]
    last = [WITHDRAWAL.replace(',"site":0', "")] * count
    among, alone = (at_site(programs[0], folder, start + held, last, given.runs) for held in (forged, []))
    paths = {0: write(folder, start), 1: write(folder, start + [WITHDRAWAL] * count)}
    scripts = compare.counted(plain, "script", paths), timed(plain, paths, given.runs)
    for what, *sites, script in zip(("instructions", "ns"), among, alone, scripts):
        other = each(script, *plain, count)
        yield f"{what} a withdrawal at a site; plain's in a script, none forged", sites[0], other
        yield f"{what} a withdrawal at a site, none forged; plain's in a script", sites[1], other


def start(_kind, programs, folder, given):
    """A site started on a journal of deposits, and in place of bench/plain an audit of the same by rbbank."""
    for kind in ("deposit", "deposit-by-id"):
        journal = os.path.join(folder, kind)
        SITE.from_file(SITE.words(programs[0], journal, kind), SITE.events(kind, given.entries), folder)
        nothing = measure.written(folder, [SITE.BANK])
        ways = [("site", nothing, *SITE.words(programs[0], journal, kind)[2:]), ("audit", journal)]
        rounds = [[usage(programs[0], *way) for way in ways] for _ in range(given.runs)]
        for at, what, unit in ((0, "processor time, ms", 1e-3), (1, "peak memory, MB", 1e6)):
            yield f"{kind}, {what}; an audit's", *(min(used[at] for used in way) / unit for way in zip(*rounds))


def tellers(_kind, programs, _folder, given):
    found = [float(cell) for cell in threads.beside(programs, 8, 64, given)]
    yield "processor time, ms", *found[2:4]
    yield "from start to end, ms", *found[5:7]


KINDS = {**dict.fromkeys(LAST, of_last), "faulty-neighbour": neighbour, "small-16": small, "small-3": small,
         "statements": statements, "site-start": start, "threads": tellers}


def main():
    words = argparse.ArgumentParser(description=__doc__)
    words.add_argument("program", nargs="?", help="a built rbbank; without it, `make build` makes it")
    words.add_argument("--kinds", default=",".join(KINDS))
    words.add_argument("--entries", type=int, default=1_000_000, help="rows of a statement, and entries of a journal")
    words.add_argument("--runs", type=int, default=5, help="of which the least counts; small ones: ten times as many")
    words.set_defaults(seed=1)
    given = words.parse_args()
    chosen, plain = given.kinds.split(","), os.path.join(FOLDER, "plain")
    if not KINDS.keys() >= set(chosen):
        words.error(f"the kinds are {', '.join(KINDS)}")
    subprocess.run(["cargo", "build", "-q", "--release"], cwd=plain, check=True)
    programs = [os.path.abspath(given.program) if given.program else run.built(), f"{plain}/target/release/plain-bank"]
    measure.adopt()
    commit = subprocess.check_output(["git", "rev-parse", "--short", "HEAD"], cwd=FOLDER, text=True).strip()
    print(f"{datetime.date.today()}, sources of {commit}\n\n|", " | ".join(HEAD), "|\n|" + "---|" * len(HEAD))
    for kind in chosen:
        with tempfile.TemporaryDirectory(dir="/dev/shm") as folder:
            for what, *numbers in KINDS[kind](kind, programs, folder, given):
                told = ["" if it is None else format(it, ",.0f" if it >= 100 else ".1f") for it in numbers]
                print("|", " | ".join([kind, what, *told, compare.ratio(*numbers)]), "|", flush=True)


if __name__ == "__main__":
    main()
