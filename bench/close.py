#!/usr/bin/env python3
"""Measures `rbbank close` beside `rbbank audit` of the same histories: seconds of processor time, and instructions an
entry.

usage: close.py [--entries N] [PROGRAM]

One site makes deposits, and another one receives and applies each. So of three entries one is the first site's.
"""
import argparse
import json
import os
import subprocess
import sys
import tempfile

sys.dont_write_bytecode = True
import measure
import run

BANK = '{"accounts":[["a0",0]],"sites":2,"version":1}\n'
DEPOSIT = '{"deposit":["a0",5]}\n'
COUNTED = 3_000  # entries whose instructions are counted


def site(program, folder, me, lines):
    """The lines that a new site answers; its journal is sealed then."""
    path = os.path.join(folder, f"{me}.journal")
    words = [program, "site", "--me", str(me), "--journal", path]
    given = "".join([BANK, *lines]).encode()
    answers = subprocess.run([*words, "--new"], input=given, stdout=subprocess.PIPE, check=True).stdout
    subprocess.run([*words, "--seal"], check=True)
    return answers.decode().splitlines()


def journals(program, folder, entries):
    """The sealed journals of two sites, with up to this number of entries in all."""
    made = site(program, folder, 0, [DEPOSIT] * (entries // 3))
    sent = [message for answer in made for message in json.loads(answer)["sends"]]
    site(program, folder, 1, [json.dumps(message, separators=(",", ":")) + "\n" for message in sent])
    return [os.path.join(folder, f"{me}.journal") for me in (0, 1)]


def history(folder, paths):
    """The same histories as an audit reads them, in one file."""
    path = os.path.join(folder, "histories")
    with open(path, "w", encoding="utf-8") as out:
        for number, journal in enumerate(paths):
            with open(journal, encoding="utf-8") as file:
                lines = file.read().splitlines(keepends=True)
            out.writelines(lines[number > 0:-1])
    return path


def seconds(words, path):
    """The seconds of processor time that a command takes."""
    with open(path, "rb") as given, subprocess.Popen(words, stdin=given, stdout=subprocess.DEVNULL) as command:
        _, status, used = os.wait4(command.pid, 0)
        command.returncode = os.waitstatus_to_exitcode(status)
    if command.returncode:
        raise SystemExit(f"{' '.join(words)}: status {command.returncode}")
    return used.ru_utime + used.ru_stime


def main():
    reader = argparse.ArgumentParser(description=__doc__, formatter_class=argparse.RawDescriptionHelpFormatter)
    reader.add_argument("program", nargs="?")
    reader.add_argument("--entries", type=int, default=1_000_000)
    given = reader.parse_args()
    program = given.program or run.built()
    with tempfile.TemporaryDirectory() as folder:
        paths = journals(program, folder, given.entries)
        audit = min(seconds([program, "audit"], history(folder, paths)) for _ in range(3))
        close = min(seconds([program, "close", *paths], os.devnull) for _ in range(3))
        print(f"{given.entries:,} entries: audit {audit:.2f} s, close {close:.2f} s, {close / audit:.2f} times")
    with tempfile.TemporaryDirectory() as folder:
        paths = journals(program, folder, COUNTED)
        audit = measure.instructions(program, "audit", history(folder, paths)) / COUNTED
        close = measure.instructions(program, "close", os.devnull, *paths) / COUNTED
        print(f"instructions an entry: audit {audit:,.0f}, close {close:,.0f}, {close / audit:.2f} times")


if __name__ == "__main__":
    main()
