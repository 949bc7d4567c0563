#!/usr/bin/env python3
"""Compares what `rbbank close` answers with what docs/FORMAT.md says of it: each line, each fault, and its status.

usage: closings.py [--quiet] PROGRAM    (--quiet prints only what is different)

The journals are written by sites of the program itself, and sealed by it; some are spoiled then, or have more names.
One is a pipe, which can be read once.
"""
from __future__ import annotations

import json
import os
import subprocess
import sys
import tempfile
from collections.abc import Iterator
from typing import Any, NamedTuple

import report
from site_process import compact

BANK = {"accounts": [["ann", 0], ["bob", 7]], "sites": 2, "version": 1}
FULL = {"accounts": [["ann", 99_999_999_999]], "sites": 2, "version": 1}
LIMITS = {"blue": 1_000_000, "epoch": 4_000_000_000, "history": 100_000_000, "inbox": 4096, "red": 1_000_000}

NO_VALUE = "  column 1: the line ends here, and a value is missing\n  \n  ^\n"  # of a blank line


def next_bank(accounts: list[list[Any]], sites: int = 2, version: int = 1) -> str:
    return compact({"accounts": accounts, **LIMITS, "sites": sites, "version": version}) + "\n"


class Case(NamedTuple):
    """The words behind `close`, and what comes of them."""

    words: str
    out: str = ""
    err: str = ""
    status: int = 0


CASES = [
    Case("made.0 received.1", next_bank([["ann", 500], ["bob", 7]])),
    Case("--account zed made.0 received.1 --account eve",
         next_bank([["ann", 500], ["bob", 7], ["zed", 0], ["eve", 0]])),
    Case("--sites 9 made.0 received.1", next_bank([["ann", 500], ["bob", 7]], 9, 2)),
    Case("none.0 none.1", next_bank([["ann", 0], ["bob", 7]])),
    Case("made.0 none.1", '{"fault":"open","lacks":[[],["B0.1"]]}\n', status=1),
    Case("red.0 none.1", '{"fault":"open","lacks":[[],["B0.1","R1"]]}\n', status=1),
    Case("red.0 held.1", '{"fault":"open","lacks":[[],["B0.1","R1"]]}\n', status=1),
    Case("cancelled.0 cancelled.1", next_bank([["ann", 0], ["bob", 7]])),
    Case("wrong.0 received.1", '{"event":1,"fault":"reply","site":0}\n', status=1),
    Case("none.0 received.1", '{"fault":"stuck","next":[1,1]}\n', status=1),
    Case("passed.0 none.1", next_bank([["ann", 0], ["bob", 7]])),
    Case("asked.0 received.1", next_bank([["ann", 500], ["bob", 7]])),
    Case("twice.0 twice.1", next_bank([["ann", 0], ["bob", 7]])),
    Case("few.0 few.1", next_bank([["ann", 0]]).replace('"inbox":4096', '"inbox":3')),
    Case("full.0 full.1", next_bank([["ann", 100_000_000_000]])),
    Case("above.0 above.1", '{"account":"ann","fault":"limit"}\n', status=1),
    Case("made.0 open.1", err="rbbank: open.1: not sealed\n", status=2),
    Case("unended.0 none.1", err="rbbank: unended.0: not sealed\n", status=2),
    Case("made.0 two_seals.1", err="rbbank: two_seals.1: not sealed\n", status=2),
    Case("blank.0 open.1", err="rbbank: blank.0: line 3: bad line\n" + NO_VALUE, status=2),
    Case("short.0 none.1", err="rbbank: short.0: another bank's journal\n"
         "  its first line has another spelling\n", status=2),
    Case("headless.0 open.1", err="rbbank: headless.0: another bank's journal\n" + NO_VALUE, status=2),
    Case("three.0 three.1", err="rbbank: 2 journals for 3 sites\n", status=2),
    Case("three.0 none.1", err="rbbank: 2 journals for 3 sites\n", status=2),
    Case("unended_three.0 three.1", err="rbbank: unended_three.0: not sealed\n", status=2),
    Case("made.0 full.1", err="rbbank: full.1: another bank's journal\n"
         "  its first line has another list of accounts\n", status=2),
    Case("nothing.0 none.1", err="""\
rbbank: nothing.0: another bank's journal
  column 2: a configuration has no key "account": there are: accounts, sites, version, blue, red, inbox, history, epoch
  {"account":[["ann",0],["bob",7]],"blue":1000000,"epoch":4000000000,"hist
   ^
""", status=2),
    Case("made.0 nothing.0", err="rbbank: nothing.0: another bank's journal\n"
         "  its first line is no configuration\n", status=2),
    Case("bad.0 none.1", err="""\
rbbank: bad.0: line 2: bad line
  column 28: -5 has a sign, and an amount in cents is 1 to 100,000,000,000
  {"event":{"deposit":["ann",-5]},"reply":{"kind":"deposit","name":"B0.1"}
                             ^
""", status=2),
    Case("made.0 copy.0", err="rbbank: copy.0: line 2: another site's entry\n", status=2),
    Case("none.0 none.0", err="rbbank: none.0: the same file as none.0\n", status=2),
    Case("none.0 ./none.0", err="rbbank: ./none.0: the same file as none.0\n", status=2),
    Case("made.0 none.0 linked.1", err="rbbank: linked.1: the same file as none.0\n", status=2),
    Case("named.1 made.0 none.0", err="rbbank: none.0: the same file as named.1\n", status=2),
    Case("made.0 pipe.1", err="rbbank: pipe.1: another bank's journal\n", status=2),
    Case("made.0", err="rbbank: 1 journals for 2 sites\n", status=2),
    Case("made.0 none.1 none.0", err="rbbank: 3 journals for 2 sites\n", status=2),
    Case("--account Zed made.0 none.1", err="rbbank: account Zed: no name\n", status=2),
    Case("--account= made.0 no.1", err="rbbank: account : no name\n", status=2),
    Case("--account=-x made.0 received.1", next_bank([["ann", 500], ["bob", 7], ["-x", 0]])),
    Case("--account zed --account bob made.0 no.1", err="rbbank: account bob: there is one already\n", status=2),
    Case("--account zed --account Zed no.0", err="rbbank: account Zed: no name\n", status=2),
    Case("--sites=+9 made.0 -- --sites", err="rbbank: --sites: No such file or directory (os error 2)\n", status=3),
    Case("--account zed --account zed no.0", err="rbbank: account zed: there is one already\n", status=2),
    Case("--account bob made.0 no.1", err="rbbank: account bob: there is one already\n", status=2),
    Case(" ".join(f"--account a{n}" for n in range(999)) + " made.0 no.1", err="rbbank: too many accounts\n", status=2),
    Case("made.0 no.1", err="rbbank: no.1: No such file or directory (os error 2)\n", status=3),
]


class Folder:
    """The journals of the cases, in a folder."""

    def __init__(self, program: str, path: str) -> None:
        self.program, self.path = program, path

    def site(self, name: str, bank: Any, events: list[Any], seal: bool = True) -> list[Any]:
        """Runs a site over a new journal, and seals it. What it sent."""
        words = [self.program, "site", "--me", name[-1], "--journal", name]
        given = "".join(compact(line) + "\n" for line in [bank, *events])
        run = subprocess.run([*words, "--new"], input=given, text=True, capture_output=True, cwd=self.path, check=True)
        if seal:
            subprocess.run([*words, "--seal"], cwd=self.path, check=True)
        return [message for line in run.stdout.splitlines() for message in json.loads(line)["sends"]]

    def spoil(self, name: str, source: str, old: str, new: str) -> None:
        """A copy of a journal with another text in the place of one."""
        with open(os.path.join(self.path, source), encoding="utf-8") as file:
            text = file.read()
        with open(os.path.join(self.path, name), "w", encoding="utf-8") as file:
            file.write(text.replace(old, new))

    def make(self) -> None:
        deposit, withdraw = {"deposit": ["ann", 500]}, {"withdraw": ["ann", 1]}
        for site in (0, 1):
            self.site(f"none.{site}", BANK, [])
        made = self.site("made.0", BANK, [deposit])
        self.site("received.1", BANK, made)
        self.site("open.1", BANK, made, seal=False)
        red = self.site("red.0", BANK, [deposit, withdraw])
        self.site("held.1", BANK, red[1:])
        undone = self.site("cancelled.0", BANK, [deposit, {"cancel": "B0.1"}])
        self.site("cancelled.1", BANK, undone)
        self.site("passed.0", BANK, [{"pass": 1}])
        self.site("asked.0", BANK, [deposit | {"id": "a"}])
        red, cancel = [{"withdraw": ["bob", 3]}, {"cancel": "R1"}], {"cancel": "R1"}
        taken, given_back = self.site("once.0", BANK, red)
        again = self.site("twice.1", BANK, [taken, cancel, given_back])
        self.site("twice.0", BANK, [*red, *again])
        for name, bank in (("few", {"accounts": [["ann", 0]], "inbox": 3, "sites": 2, "version": 1}),
                           ("three", BANK | {"sites": 3})):
            for site in (0, 1):
                self.site(f"{name}.{site}", bank, [])
        for name, cents in (("full", 1), ("above", 2)):
            sent = self.site(f"{name}.0", FULL, [{"deposit": ["ann", cents]}])
            self.site(f"{name}.1", FULL, sent)
        self.spoil("wrong.0", "made.0", '"name":"B0.1"', '"name":"B0.2"')
        self.spoil("bad.0", "made.0", "500", "-5")
        self.spoil("nothing.0", "none.0", "accounts", "account")
        self.spoil("unended.0", "made.0", "\t", "")
        self.spoil("unended_three.0", "three.0", "\t", "")
        self.spoil("two_seals.1", "none.1", "\t", "\t\t")
        self.spoil("blank.0", "made.0", "\t", "\n\t")
        self.spoil("short.0", "made.0", compact(LIMITS)[1:-1] + ",", "")
        self.spoil("headless.0", "made.0", '{"accounts"', '\n{"accounts"')
        self.spoil("copy.0", "made.0", "", "")
        os.symlink("none.0", os.path.join(self.path, "linked.1"))
        os.link(os.path.join(self.path, "none.0"), os.path.join(self.path, "named.1"))
        os.mkfifo(os.path.join(self.path, "pipe.1"))

    def answers(self, case: Case) -> Case:
        words = [self.program, "close", *case.words.split()]
        if "pipe.1" in case.words:  # another bank's journal, which waits for its one reader
            subprocess.Popen(["timeout", "60", "cp", "full.1", "pipe.1"], cwd=self.path)
        try:
            run = subprocess.run(words, capture_output=True, text=True, cwd=self.path, timeout=60)
        except subprocess.TimeoutExpired as late:
            return case._replace(out="", err=f"{(late.stderr or b'').decode()}no end\n", status=-1)
        return case._replace(out=run.stdout, err=run.stderr, status=run.returncode)


def results(program: str) -> Iterator[tuple[str, bool]]:
    """Each case with whether it is as wanted, and what was found if it isn't."""
    with tempfile.TemporaryDirectory() as path:
        folder = Folder(program, path)
        folder.make()
        for case in CASES:
            found = folder.answers(case)
            other = "" if found == case else f": {found.out}{found.err}status {found.status}"
            yield f"close {case.words[-60:]}{other}", found == case


if __name__ == "__main__":
    sys.exit(report.run(__doc__, results))
