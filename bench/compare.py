#!/usr/bin/env python3
"""Runs a second program on the inputs of run.py, checks that it answers as rbbank does, and prints ratios.

usage: compare.py OTHER_PROGRAM [PROGRAM] [--kinds K,..] [--sizes N,..] [--runs N] [--seed N]

Both programs are given the word `script`, `audit` or `migrate` and an input on standard input, and must write the same
bytes and end in the same status; else the line says where they differ, and the status is 1. A ratio is rbbank's number
over the other's: of processor time (the least of interleaved runs), of instructions (by callgrind, where valgrind is
there) and of peak memory. The time and the instructions of an input without commands are taken off first.
"""
import argparse
import itertools
import os
import shutil
import subprocess
import sys
import tempfile

sys.dont_write_bytecode = True
import generate
import measure
import run

HEAD = ["Kind", "Commands", "Processor time", "Instructions", "Peak memory"]
SIZES = "10000,100000,1000000"


def answer(program, word, path):
    """What a program writes, line by line, and its status at the end."""
    with open(path, "rb") as script, subprocess.Popen([program, word], stdin=script, stdout=subprocess.PIPE) as started:
        yield from started.stdout
        yield started.wait()


def difference(programs, word, path):
    """The number of the first line in which the answers differ, or None where they are the same."""
    lines = itertools.zip_longest(*(answer(program, word, path) for program in programs))
    return next((number for number, (one, other) in enumerate(lines, 1) if one != other), None)


def least(programs, word, paths, runs):
    """For each program and each size the least seconds and the least peak of interleaved runs; None over the limit."""
    best = {}
    for _ in range(runs):
        for size, program in itertools.product(paths, programs):
            used, before = measure.usage(program, word, paths[size]), best.get((program, size))
            best[program, size] = tuple(map(min, before, used)) if before and used else used
    return best


def counted(programs, word, paths):
    """For each program and each size that isn't too long the instructions, where valgrind is there."""
    if not shutil.which("valgrind"):
        return {}
    short = [size for size in paths if size <= run.MOST_COUNTED]
    return {(program, size): measure.instructions(program, word, paths[size])
            for program, size in itertools.product(programs, short)}


def ratio(one, other):
    """The first number over the second, where both are known and above nothing."""
    return format(one / other, ".2f") if one and other and one > 0 and other > 0 else ""


def over_none(numbers, program, size):
    """A program's number at a size, less its number without commands; None where either isn't known."""
    with_commands, without = numbers.get((program, size)), numbers.get((program, 0))
    return with_commands - without if with_commands and without is not None else None


def compared(programs, kind, sizes, given):
    """For each size the cells of its line, and whether the answers are the same."""
    with tempfile.TemporaryDirectory() as folder:
        paths = {size: run.script(folder, kind, size, given.seed) for size in [0, *sizes]}
        word = run.word(kind)
        same = {size: difference(programs, word, paths[size]) for size in sizes}
        if any(same.values()):
            for size in sizes:
                yield [kind, f"{size:,}", f"line {same[size]} differs" if same[size] else "", "", ""], not same[size]
            return
        best = least(programs, word, paths, given.runs)
        seconds = {place: used and used[0] for place, used in best.items()}
        peaks = {place: used and used[1] for place, used in best.items()}
        counts = counted(programs, word, paths)
        for size in sizes:
            yield [kind, f"{size:,}", ratio(*(over_none(seconds, program, size) for program in programs)),
                   ratio(*(over_none(counts, program, size) for program in programs)),
                   ratio(*(peaks[program, size] for program in programs))], True


def words():
    """The command line's words."""
    parser = argparse.ArgumentParser(description=__doc__, formatter_class=argparse.RawDescriptionHelpFormatter)
    parser.add_argument("other", help="the program to compare with")
    parser.add_argument("program", nargs="?", help="a built rbbank; without it, `make build` makes it")
    parser.add_argument("--kinds", default=",".join(generate.KINDS))
    parser.add_argument("--sizes", default=SIZES, help=f"commands, the least first, {SIZES}")
    parser.add_argument("--runs", type=int, default=5, help="interleaved runs of which the least time counts")
    parser.add_argument("--seed", type=int, default=1)
    given = parser.parse_args()
    given.kinds, given.sizes = given.kinds.split(","), [int(size) for size in given.sizes.split(",")]
    if not generate.KINDS.keys() >= set(given.kinds):
        parser.error(f"the kinds are {', '.join(generate.KINDS)}")
    return given


def main():
    given = words()
    programs = [os.path.abspath(given.program) if given.program else run.built(), os.path.abspath(given.other)]
    measure.adopt()
    print("|", " | ".join(HEAD), "|\n|" + "---|" * len(HEAD))
    differ = False
    for kind in given.kinds:
        for cells, same in compared(programs, kind, run.sizes_of(kind, given.sizes), given):
            print("|", " | ".join(cells), "|", flush=True)
            differ = differ or not same
    sys.exit(1 if differ else 0)


if __name__ == "__main__":
    main()
