#!/usr/bin/env python3
"""Runs the stored cases and examples of the words script, audit and migrate through a program, and prints what differs.

usage: stored.py PROGRAM [REPOSITORY]
"""
import glob
import os
import subprocess
import sys

sys.dont_write_bytecode = True
HERE = os.path.dirname(os.path.abspath(__file__))
ROOT = sys.argv[2] if len(sys.argv) > 2 else os.path.join(HERE, "..", "..")
sys.path[:0] = [os.path.join(ROOT, folder) for folder in ("tests", "examples/tools")]
import bank  # noqa: E402
import cases  # noqa: E402

WORDS = ("script", "audit", "migrate")


def stored(path, missing):
    """A stored file's bytes."""
    if not os.path.exists(path):
        return missing
    with open(path, "rb") as file:
        return file.read()


def is_same(program, path):
    """Whether an example is answered as it is stored."""
    stem = path.removesuffix(".jsonl")
    run = subprocess.run([program, bank.word_of(path)], input=stored(path, b""), capture_output=True)
    wanted = stored(stem + ".expected", b""), stored(stem + ".fault", b""), int(stored(stem + ".status", b"0"))
    return (run.stdout, run.stderr, run.returncode) == wanted


def main():
    if len(sys.argv) not in (2, 3):
        sys.exit(__doc__)
    program = os.path.abspath(sys.argv[1])
    all_cases = [*cases.written_down(), *cases.made_here()]
    of_words = [case for case in all_cases if case.words[:1] and case.words[0] in WORDS]
    results = [(case.name, cases.passes(program, case)) for case in of_words if len(case.words) == 1]
    paths = sorted(glob.glob(os.path.join(ROOT, "examples", "*", "*.jsonl")))
    results += [(path, is_same(program, path)) for path in paths if bank.word_of(path) in WORDS]
    different = [name for name, same in results if not same]
    print(*(f"DIFFERENT {name}" for name in different), f"{len(results)} runs, {len(different)} different", sep="\n")
    sys.exit(1 if different else 0)


if __name__ == "__main__":
    main()
