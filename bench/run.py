#!/usr/bin/env python3
"""Measures `rbbank script` on generated scripts, `rbbank audit` and `rbbank migrate` on generated histories, and prints
a table, a line for each kind and size.

README.md says what each kind and each number is.
"""
import argparse
import os
import shutil
import subprocess
import sys
import tempfile
import typing

sys.dont_write_bytecode = True
import generate
import kinds
import measure
from limits import LIMITS

ROOT = os.path.dirname(os.path.dirname(os.path.abspath(__file__)))
SIZES = "1000,10000,100000,1000000"
# These are measured at each size, and those of the shortest ledgers that aren't here at the least size alone.
AT_EACH = [*generate.MIXED, *kinds.LONG, "balance", "deposit"]
# A site's blue operations allow no more commands than these: a batch makes three, a pair two.
MOST = {"batches": LIMITS["MOST_BLUE"] // 3, "pairs": LIMITS["MOST_BLUE"] // 2}
# Shorter scripts aren't timed, and for longer ones, or those that take more seconds, instructions aren't counted.
LEAST_TIMED, MOST_COUNTED, SLOW = 10_000, 100_000, 2
HEAD = ["Kind", "Commands", "Refused", "Commands a second", "Growth", "Instructions a command", "Writes", "Peak, MB"]


class Figures(typing.NamedTuple):
    """What is known of a script: nothing where it took too long, and None for what isn't measured."""
    refused: int
    seconds: float
    growth: float
    instructions: float
    writes: int
    peak: int


def built():
    """The program that `make build` makes."""
    subprocess.run(["make", "-s", "build"], cwd=ROOT, check=True, stdout=sys.stderr)
    return os.path.join(ROOT, "crates", "rbbank", "out", "rbbank")


def word(kind):
    """The command of the program that reads a kind."""
    return {"histories": "audit", "migrations": "migrate"}.get(kind.partition("-")[0], "script")


def script(folder, kind, size, seed):
    """A generated script, as a file."""
    path = os.path.join(folder, f"{size}.jsonl")
    with open(path, "w", encoding="ascii") as out:
        generate.write(out, kind, size, seed)
    return path


def timed(program, asked, paths, runs):
    """The least time and memory of each script that ends in time. In each round all are run, short ones more often."""
    first = {size: measure.usage(program, asked, path) for size, path in paths.items()}
    best = {size: used for size, used in first.items() if used}
    for _ in range(runs):
        for size in best:
            for _ in range(max(1, min(10, MOST_COUNTED // max(size, 1)))):
                used = measure.usage(program, asked, paths[size]) or best[size]
                best[size] = tuple(map(min, best[size], used))
    return best


def counted(program, asked, paths, times):
    """The instructions of each script that isn't too long, where valgrind is there."""
    if not shutil.which("valgrind"):
        return {}
    short = [size for size, used in times.items() if size <= MOST_COUNTED and used[0] < SLOW]
    return {size: measure.instructions(program, asked, paths[size]) for size in short}


def figures(program, kind, sizes, given):
    """Each size with its figures, or None where it takes too long. Of time and instructions those of no commands are
    taken off."""
    with tempfile.TemporaryDirectory() as folder:
        paths = {size: script(folder, kind, size, given.seed) for size in [0, *sizes]}
        asked = word(kind)
        times = timed(program, asked, paths, given.runs)
        counts = counted(program, asked, paths, times)
        before = None
        for size in sizes:
            if size not in times:
                yield size, None
                continue
            taken = (times[size][0] - times[0][0]) / size if size >= LEAST_TIMED else None
            growth = taken / before if taken and before else None
            steps = (counts[size] - counts[0]) / size if counts.get(size) and counts.get(0) else None
            writes = measure.writes(program, asked, paths[size]) if shutil.which("strace") else None
            refused = measure.refused(program, asked, paths[size])
            yield size, Figures(refused, taken, growth, steps, writes, times[size][1])
            before = taken


def cells(found):
    """The figures as words of the table."""
    if found is None:
        return [f"over {measure.LIMIT} s"] + [""] * (len(HEAD) - 3)
    rate = 1 / found.seconds if found.seconds else None
    told = [(found.refused, ",d"), (rate, ",.0f"), (found.growth, ".2f"), (found.instructions, ",.0f")]
    told += [(found.writes, ",d"), (found.peak / 1e6, ".1f")]
    return ["" if number is None else format(number, form) for number, form in told]


def sizes_of(kind, sizes):
    """The sizes at which a kind is measured."""
    return [size for size in sizes if size <= MOST.get(kind, size)] if kind in AT_EACH else sizes[:1]


def tell_bytes(peaks):
    """Bytes for an operation at its home, from the two longest scripts of deposits alone."""
    if len(peaks) > 1:
        (few, low), (many, high) = sorted(peaks.items())[-2:]
        print(f"\nBytes for an operation at its home: {(high - low) / (many - few):.0f}")


def main():
    words = argparse.ArgumentParser(description=__doc__)
    words.add_argument("program", nargs="?", help="a built rbbank; without it, `make build` makes it")
    words.add_argument("--kinds", default=",".join(dict.fromkeys([*AT_EACH, *kinds.SHORTEST, *generate.AT_SITES])))
    words.add_argument("--sizes", default=SIZES, help=f"commands, the least first, {SIZES}")
    words.add_argument("--runs", type=int, default=3, help="rounds, of which the best is printed")
    words.add_argument("--seed", type=int, default=1)
    given = words.parse_args()
    chosen = given.kinds.split(",")
    if not generate.KINDS.keys() >= set(chosen):
        words.error(f"the kinds are {', '.join(generate.KINDS)}")
    program, sizes = os.path.abspath(given.program) if given.program else built(), given.sizes.split(",")
    measure.adopt()
    print("|", " | ".join(HEAD), "|\n|" + "---|" * len(HEAD))
    peaks = {}
    for kind in chosen:
        for size, found in figures(program, kind, sizes_of(kind, list(map(int, sizes))), given):
            print("|", " | ".join([kind, f"{size:,}", *cells(found)]), "|", flush=True)
            if kind == "deposit" and found:
                peaks[size] = found.peak
    tell_bytes(peaks)


if __name__ == "__main__":
    main()
