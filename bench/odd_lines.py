#!/usr/bin/env python3
"""Compares the two ways in which `rbbank` reads a command and an entry of a history: in one pass, and by JSON values.

Odd lines go through the program as they are, and again with a space in front of each, which changes no line's meaning
and which the reading in one pass doesn't know. What is written, the message and the status have to be the same,
but for the lines below the message, which name a column.
A script or an audit ends at its first bad line, so the lines behind it go into the next.
"""
import argparse
import random
import re
import subprocess
import sys

sys.dont_write_bytecode = True
from limits import LIMITS
from bank import KINDS, REQUESTS, TAKES

CONFIG = b'{"accounts":[["ann",500],["bob",0]],"sites":3,"version":1}\n'
NUMBERS = ["0", "1", "2", "7", "50", "255", "256", "4294967295", "4294967296",
           str(LIMITS["MOST_CENTS"]), str(LIMITS["MOST_CENTS"] + 1),
           "999999999999999999", "1000000000000000000", "18446744073709551615", "18446744073709551616"]
ODD_NUMBERS = ["-1", "-0", "01", "1.0", "1e2", "1E0", "+1", "0x1", "", "null", "true", '"1"', "[1]"]
NAMES = ["ann", "bob", "eve", "", "a b", "\u00e9", "B0.1", "R1", "\u007f"]
OPERATIONS = ["B0.1", "B0.2", "B1.1", "R1", "R2", "B00.1", "r1", "B255.4294967295", "B256.1", "R4294967296", "R0", ""]
KEYS = list(TAKES)
LABELS = [*KINDS, "lend"]
# What replies tell: the kinds of their members' values, by their keys.
REPLIES = [{"kind": "label", "name": "name"}, {"held": "name"}, {"already": "name"}, {"applied": "name"},
           {"names": "names"}, {"taken": "number"}, {"stale": "number"}, {"passed": "number"}, {"balance": "number"},
           {"refused": "refusal"}, {"balance": "number", "rows": "rows", "start": "number"},
           {"position": "number", "refused": "6"}, {"needed": "number", "refused": "9", "seen": "number"},
           {"cause": "cause", "index": "number", "refused": "13"}, {"refused": "17", "why": "number"}]
ROW = ["number", "name", "label", "moved", "cancelled", "number"]
SHADOW = {"account": "account", "amount": "number", "deps": "deps", "home": "number", "kind": "label", "name": "name"}
# The last member of a shadow: none, that of a cancellation or that of a transfer.
LASTS = [{}, {"target": "name"}, {"to": "account"}]


class Odd:
    """Lines that are mostly commands, spelled and spoilt at random."""

    def __init__(self, seed):
        self.random = random.Random(seed)

    def one_in(self, n):
        return self.random.randrange(n) == 0

    def gap(self):
        return self.random.choice([" ", "  ", "\t"]) if self.spaced and self.one_in(3) else ""

    def text(self, word):
        if self.one_in(40):
            at = self.random.randrange(len(word) + 1)
            word = word[:at] + "\\u%04x" % ord(word[at]) + word[at + 1:] if at < len(word) else word + "\\n"
        return '"' + word + '"'

    def number(self):
        if self.one_in(40):
            return self.random.choice(ODD_NUMBERS)
        return self.random.choice(NUMBERS[:5] if self.one_in(2) else NUMBERS)

    def listed(self, items):
        return "[" + self.gap() + (self.gap() + "," + self.gap()).join(items) + self.gap() + "]"

    def members(self, members):
        told = [self.text(key) + self.gap() + ":" + self.gap() + value for key, value in members]
        return "{" + self.gap() + (self.gap() + "," + self.gap()).join(told) + self.gap() + "}"

    def field(self, field):
        if field == "requests":
            count = self.random.randrange(4)
            return self.listed([self.members([self.member(self.random.choice(REQUESTS))]) for _ in range(count)])
        names = {"account": NAMES, "to": NAMES, "name": OPERATIONS}.get(field)
        return self.text(self.random.choice(names)) if names else self.number()

    def value(self, key):
        parts = list(map(self.field, TAKES[key]))
        return parts[0] if len(parts) == 1 else self.listed(parts[1:] if self.one_in(40) else parts)

    def member(self, key):
        return key, self.value(self.random.choice(KEYS) if self.one_in(60) else key)

    def part(self, kind):
        """A value of this kind, or else the number that the kind is."""
        parts = {
            "number": lambda: self.number() if self.one_in(20) else self.random.choice(NUMBERS[:5]),
            "name": lambda: self.text(self.random.choice(OPERATIONS if self.one_in(20) else OPERATIONS[:5])),
            "names": lambda: self.listed([self.part("name") for _ in range(self.random.randrange(3))]),
            "account": lambda: self.text(self.random.choice(NAMES + ["?"])),
            "label": lambda: self.text(self.random.choice(LABELS if self.one_in(20) else KINDS)),
            "refusal": lambda: str(self.random.randrange(26)),
            "cause": lambda: self.part("label" if self.one_in(2) else "number"),
            "deps": lambda: self.listed([self.part("counts"), self.part("number")]),
            "counts": lambda: self.listed([self.part("number") for _ in range(7 if self.one_in(20) else 8)]),
            "token": lambda: self.listed([self.part("number") for _ in range(3)]),
            "moved": lambda: ("-" if self.one_in(2) else "") + self.part("number"),
            "cancelled": lambda: "null" if self.one_in(20) else self.random.choice(["true", "false"]),
            "row": lambda: self.listed([self.part(k) for k in ROW]),
            "rows": lambda: self.listed([self.part("row") for _ in range(self.random.randrange(3))]),
        }
        return parts[kind]() if kind in parts else kind

    def told(self, kinds):
        members = [(key, self.part(kind)) for key, kind in kinds.items()]
        if self.one_in(40):
            self.random.shuffle(members)
        return self.members(members)

    def event(self):
        key = self.random.choice(KEYS + ["shadow", "token"] * 3)
        if key == "shadow":
            return self.members([(key, self.told(SHADOW | self.random.choice(LASTS)))])
        return self.told({key: "token"}) if key == "token" else self.members([self.member(key)])

    def entry(self):
        """A line of a history, mostly as it is written."""
        self.spaced = self.one_in(8)
        members = [("event", self.event()), ("reply", self.told(self.random.choice(REPLIES)))]
        members.append(("site", self.random.choice("0123")))
        if self.one_in(40):
            self.random.shuffle(members)
        return self.spoilt(self.members(members))

    def line(self):
        self.spaced = self.one_in(4)
        site = self.random.choice(["0", "1", "2"]) if self.random.randrange(8) else self.number()
        members = [self.member(self.random.choice(KEYS)), ("site", site)]
        if self.one_in(40):
            members.append(self.random.choice(members))
        if self.one_in(40):
            members.pop(self.random.randrange(len(members)))
        self.random.shuffle(members)
        return self.spoilt(self.members(members))

    def spoilt(self, line):
        at = self.random.randrange(len(line))
        fate = self.random.randrange(60)
        if fate == 0:
            return line[:at]
        if fate == 1:
            return line[:at] + line[at + 1:]
        if fate == 2:
            return line[:at] + line[at] + line[at:]
        if fate == 3:
            return line[:at] + self.random.choice("{}[],:\"\\ 09aB.-\u00e9") + line[at:]
        return line


def answer(args, lines, front):
    told = CONFIG + b"".join(front + line + b"\n" for line in lines)
    done = subprocess.run([args.program, args.command], input=told, capture_output=True)
    return done.stdout, done.stderr.partition(b"\n")[0], done.returncode


def main():
    parser = argparse.ArgumentParser(description=__doc__)
    parser.add_argument("program")
    parser.add_argument("command", choices=["script", "audit"], nargs="?", default="script")
    parser.add_argument("--lines", type=int, default=100_000)
    parser.add_argument("--seed", type=int, default=1)
    args = parser.parse_args()
    odd = Odd(args.seed)
    lines = [(odd.entry() if args.command == "audit" else odd.line()).encode() for _ in range(args.lines)]
    at = runs = bad = 0
    while at < len(lines):
        some = lines[at:at + 200]
        usual, values = answer(args, some, b""), answer(args, some, b" ")
        runs += 1
        if usual != values:
            sys.exit(f"different in lines {at} to {at + len(some)}:\n{usual}\n{values}")
        # The configuration is line 1.
        stopped = re.search(rb"line (\d+)", usual[1])
        bad += stopped is not None
        at += int(stopped[1]) - 1 if stopped else len(some)
    print(f"{len(lines)} lines, {bad} of them bad, in {runs} runs: no difference")


if __name__ == "__main__":
    main()
