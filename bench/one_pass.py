#!/usr/bin/env python3
"""Says which lines `rbbank` reads in one pass: how many instructions a command, or a line of a history, takes.

Copies of a line of each form go through the program as they are, and again with the first letter of the first key
written as an escape, which the reading in one pass doesn't know. Ends in status 1 where a line as it is takes more than
half of the instructions of one that is read by its JSON value. It needs valgrind.
"""
import argparse
import json
import os
import sys
import tempfile

sys.dont_write_bytecode = True
import limits  # noqa: F401  (which finds bank.py)
import measure
from bank import KINDS, TAKES, command

COPIES = 200
VALUES = {"account": "ann", "to": "bob", "cents": 5, "rate": 50, "name": "B1.1", "next": 1, "position": 0, "message": 1,
          "requests": [{"deposit": ["ann", 5]}, {"cancel": "R1"}]}
COMMANDS = {verb: command(verb, VALUES) for verb in TAKES}
EVENTS = {key: event for key, event in COMMANDS.items() if key != "deliver"} | {"token": {"token": [1, 1, 0]}}
REPLIES = [
    *({"kind": kind, "name": "B0.1"} for kind in KINDS),
    {"names": ["B0.1", "R1"]},
    {"held": "B0.1"},
    {"already": "B0.1"},
    {"taken": 1},
    {"stale": 1},
    {"applied": "B0.1"},
    {"passed": 1},
    {"balance": 5},
    {"balance": 0, "rows": [], "start": 0},
    *({"balance": 5, "rows": [[1, "R1", kind, -5, False, 5]], "start": 0} for kind in KINDS),
    {"refused": 1},
    {"position": 1, "refused": 6},
    {"needed": 1, "refused": 9, "seen": 0},
    {"cause": "declined", "index": 0, "refused": 13},
    {"cause": 1, "index": 0, "refused": 13},
    {"refused": 17, "why": 1},
]


def shadow(version, label):
    """An operation of site 0, as it comes to another site."""
    last = {"cancel": {"target": "R1"}, "transfer": {"to": "bob"}}.get(label, {})
    counts = [0] * 8 if version == 1 else []
    members = {"account": "ann", "amount": 5, "deps": [counts, 0], "home": 0, "kind": label, "name": "B0.1"}
    return {"shadow": members | last}


def entry(event, reply, site=1):
    return {"event": event, "reply": reply, "site": site}


def repeated(version):
    """A deposit whose message comes again and again: the lines before, and the line that is repeated."""
    event = shadow(version, "deposit")
    made = entry({"deposit": ["ann", 5]}, {"kind": "deposit", "name": "B0.1"}, 0)
    return [made, entry(event, {"held": "B0.1"})], entry(event, {"already": "B0.1"})


def forms():
    """Of each form the program's command, the version of the lines, the lines before, and the line."""
    for asked in COMMANDS.values():
        yield "script", 1, [], asked | {"site": 0}
        yield "script", 1, [], {"site": 0} | asked
    for event in EVENTS.values():
        yield "migrate", 1, [], entry(event, {"refused": 1})
    for reply in REPLIES:
        yield "migrate", 1, [], entry({"pass": 1}, reply)
    for version in (1, 2):
        for label in KINDS:
            yield "migrate", version, [], entry(shadow(version, label), {"held": "B0.1"})
        yield "audit", version, *repeated(version)


def text(line):
    return json.dumps(line, separators=(",", ":"))


def escaped(line):
    """The text with the first letter of the first key as an escape."""
    found = text(line)
    return f'{found[:2]}\\u{ord(found[2]):04x}{found[3:]}'


def instructions(program, path, word, lines):
    """How many the program takes for these lines."""
    with open(path, "w", encoding="utf-8") as file:
        file.writelines(line + "\n" for line in lines)
    taken = measure.instructions(program, word, path)
    if taken is None:
        sys.exit(f"valgrind can't tell of {word} {lines[-1]}")
    return taken


def main():
    words = argparse.ArgumentParser(description=__doc__)
    words.add_argument("program")
    program = os.path.abspath(words.parse_args().program)
    slow = 0
    with tempfile.TemporaryDirectory() as folder:
        path = os.path.join(folder, "lines")
        for word, version, before, line in forms():
            bank = {"accounts": [["ann", 500], ["bob", 0]], "sites": 2, "version": version}
            front = [text(given) for given in (bank, *before)]
            least = instructions(program, path, word, front)
            ways = [[text(line)] * COPIES, [escaped(line)] * COPIES]
            usual, value = ((instructions(program, path, word, front + way) - least) // COPIES for way in ways)
            slow += usual * 2 > value
            print(f"{usual:8,} {value:8,} {'SLOW' if usual * 2 > value else '    '} {word} {text(line)}", flush=True)
    sys.exit(f"{slow} are not read in one pass" if slow else 0)


if __name__ == "__main__":
    main()
