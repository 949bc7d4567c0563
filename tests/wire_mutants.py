#!/usr/bin/env python3
"""Tries mutants of examples/tools/wire.py: each change below, on a copy, has to be caught by tests/wires.py, which
passes without a change first. What it tries of wire.py alone has to find them, so that no sites are run.

usage: wire_mutants.py [--patience SECONDS] PROGRAM [NAME]..

--patience is that of the test, 60 seconds if it isn't given.
"""
from __future__ import annotations

import argparse
import os
import subprocess
import sys
import tempfile
from typing import NamedTuple

ROOT = os.path.dirname(os.path.dirname(os.path.abspath(__file__)))
WIRE = os.path.join(ROOT, "examples", "tools", "wire.py")
TEST = os.path.join(ROOT, "tests", "wires.py")
PUT = "        if self.dropped or not self.lines.put(message):\n"
DROPPED = "        if dropped.is_met and not self.lines.put(message):\n"


class Mutant(NamedTuple):
    old: str
    new: str


MUTANTS = {
    "no_bound": Mutant("        return len(self.first) < self.most and self.size < self.most_bytes\n",
                       "        return True\n"),
    "nothing_is_asked": Mutant("            if number:\n                self.ask(number)\n", ""),
    "asked_while_none_is_taken": Mutant("for way in self.ways if way.lines.is_half_free()]", "for way in self.ways]"),
    "site_waits_for_a_peer": Mutant(PUT, "        while not self.lines.put(message):\n            time.sleep(MOMENT)\n"
                                    "        if self.dropped:\n"),
    "later_ones_go_before": Mutant(PUT, "        if not self.lines.put(message):\n"),
    "what_again_does_not_fit_is_gone": Mutant(DROPPED, DROPPED.replace("not self.lines.put(message)",
                                                                       "not (self.lines.put(message) or True)")),
    "others_are_given_all_again": Mutant("                elif not way.dropped and not asked:\n",
                                         "                elif not way.dropped:\n"),
    "own_answers_are_replies": Mutant("in [] if own else answer.replies:", "in answer.replies:"),
    "applications_are_clients": Mutant('*({"then": it} for it in answer["then"])',
                                       '*({"client": it} for it in answer["then"])'),
    "only_the_last_are_asked": Mutant("max((self.entries - it.entry + it.unseen for", "max((10 for"),
}


def status_of(text: str, asked: argparse.Namespace) -> int:
    """How the test ends with this text as wire.py."""
    with tempfile.TemporaryDirectory(prefix="mutant-") as folder:
        path = os.path.join(folder, "wire.py")
        with open(path, "w", encoding="utf-8") as file:
            file.write(text)
        run = [sys.executable, TEST, "--alone", "--wire", path, "--patience", str(asked.patience), asked.program]
        return subprocess.run(run, stdout=subprocess.DEVNULL, stderr=subprocess.DEVNULL).returncode


def tried(text: str, mutant: Mutant, asked: argparse.Namespace) -> str:
    """What became of a mutant."""
    if text.count(mutant.old) != 1:
        return "DOESN'T APPLY"
    return "caught" if status_of(text.replace(mutant.old, mutant.new), asked) == 1 else "NOT CAUGHT"


def main() -> int:
    reader = argparse.ArgumentParser(description=__doc__, formatter_class=argparse.RawDescriptionHelpFormatter)
    reader.add_argument("program", metavar="PROGRAM", help="a built rbbank")
    reader.add_argument("names", metavar="NAME", nargs="*", help="of a mutant; all if none is given")
    reader.add_argument("--patience", metavar="SECONDS", type=float, default=60, help="of the test, 60")
    asked, found = reader.parse_args(), set()
    with open(WIRE, encoding="utf-8") as file:
        text = file.read()
    if status_of(text, asked):
        print("NOT TRIED: the test fails without a change")
        return 1
    for name in asked.names or MUTANTS:
        ended = tried(text, MUTANTS[name], asked)
        found.add(ended)
        print(f"{ended:10} {name}", flush=True)
    return 0 if found == {"caught"} else 1


if __name__ == "__main__":
    sys.exit(main())
