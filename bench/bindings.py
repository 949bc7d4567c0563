#!/usr/bin/env python3
"""Measures the library from C, Rust and Python beside `rbbank script`, and prints a table: calls a second and
instructions a call of one command that is given over and over.

usage: bindings.py [PROGRAM] [--runs N]

It wants what `make bindings` makes. README.md says what each number is.
"""
import argparse
import functools
import os
import re
import shutil
import subprocess
import sys
import tempfile
import time

sys.dont_write_bytecode = True
import measure
import run
from measure import seconds, written

ROOT = os.path.dirname(os.path.dirname(os.path.abspath(__file__)))
OUT = os.path.join(ROOT, "bindings", "out")
CONFIG = b'{"accounts":[["a0",1000]],"sites":2,"version":1}\n'
KINDS = {"balance": b'{"balance":"a0","site":0}\n', "deposit": b'{"deposit":["a0",5],"site":0}\n'}
# The words that give the second line of an input so many times to a bank, without that number.
WAYS = {
    "C": [os.path.join(OUT, "rows"), "calls"],
    "Rust": [os.path.join(OUT, "cargo", "release", "examples", "rows"), "calls"],
    "Python": [sys.executable, os.path.join(ROOT, "bindings", "python", "rows.py"), "calls"],
}
TIMED, COUNTED, PIPED = 500_000, 2_000, 50_000  # calls, by what is measured
HEAD = ["Command", "Way", "Calls a second", "Instructions a call", "More than in a script"]


def rate(given, runs):
    """Calls a second of the best run, its start taken off. `given` has the words and input for a number of calls."""
    least = [min(seconds(*given(count)) for _ in range(runs)) for count in (0, TIMED)]
    return TIMED / (least[1] - least[0])


def steps(given):
    """Instructions a call, the start taken off, or None where valgrind isn't there."""
    if not shutil.which("valgrind"):
        return None
    counts = []
    for count in (0, COUNTED):
        (program, word, *more), path = given(count)
        counts.append(measure.instructions(program, word, path, *more))
    return None if None in counts else (counts[1] - counts[0]) / COUNTED


def by_turns(words, line, count):
    """Seconds of a client that gives a program one line, and waits for its answer before the next; instructions too,
    where the words begin with valgrind."""
    child = subprocess.Popen(words, stdin=subprocess.PIPE, stdout=subprocess.PIPE, stderr=subprocess.PIPE, bufsize=0,
                             env=os.environ | {"GLIBC_TUNABLES": measure.NO_REP})
    given, answers = child.stdin.fileno(), child.stdout.fileno()
    os.write(given, CONFIG)
    begun = time.perf_counter()
    for _ in range(count):
        os.write(given, line)
        if not os.read(answers, 4096):
            raise SystemExit("the program ended before it had answered")
    taken = time.perf_counter() - begun
    child.stdin.close()
    errors = child.stderr.read()
    if child.wait() != 0:
        raise SystemExit(errors.decode())
    found = re.search(rb"Collected : (\d+)", errors)
    return taken, int(found.group(1)) if found else None


def piped(program, line, runs):
    """The same of a script over a pipe, one line at a time."""
    best = min(by_turns([program, "script"], line, PIPED)[0] for _ in range(runs))
    counts = [None, None]
    if shutil.which("valgrind"):
        words = ["valgrind", "--tool=callgrind", "--callgrind-out-file=/dev/null", program, "script"]
        counts = [by_turns(words, line, count)[1] for count in (0, COUNTED)]
    return PIPED / best, None if None in counts else (counts[1] - counts[0]) / COUNTED


def rows(asked):
    """A row for each command and way: calls a second, instructions, and those of a script."""
    for kind, line in KINDS.items():
        with tempfile.TemporaryDirectory() as folder:
            def script(count):
                return [asked.program, "script"], written(folder, [CONFIG, line * count])

            def calls(words, count):
                return [*words, str(count)], written(folder, [CONFIG, line])

            own = steps(script)
            yield kind, "script, a file", rate(script, asked.runs), own, own
            yield kind, "script, a pipe, one line at a time", *piped(asked.program, line, asked.runs), own
            for way, words in WAYS.items():
                if os.path.exists(words[0]):
                    given = functools.partial(calls, words)
                    yield kind, way, rate(given, asked.runs), steps(given), own


def main():
    reader = argparse.ArgumentParser(description=__doc__, formatter_class=argparse.RawDescriptionHelpFormatter)
    reader.add_argument("program", nargs="?", help="a built rbbank; without it, `make build` makes it")
    reader.add_argument("--runs", type=int, default=3, help="runs, of which the best counts")
    asked = reader.parse_args()
    asked.program = os.path.abspath(asked.program) if asked.program else run.built()
    if not os.path.exists(WAYS["C"][0]):
        sys.exit("bindings.py: there is no library yet: make bindings")
    print("|", " | ".join(HEAD), "|\n|" + "---|" * len(HEAD))
    for kind, way, speed, count, own in rows(asked):
        cells = [f"{speed:,.0f}", *("" if count is None else (f"{count:,.0f}", f"{count - own:,.0f}"))]
        print("|", " | ".join([kind, way, *cells]), "|", flush=True)


if __name__ == "__main__":
    try:
        main()
    except KeyboardInterrupt:
        sys.exit(130)
