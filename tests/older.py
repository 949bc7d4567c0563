#!/usr/bin/env python3
"""Starts sites on journals that earlier versions of the program wrote, audits these, and closes their books.

usage: older.py [--quiet] PROGRAM       (--quiet prints only what is different)
       older.py --store NAME PROGRAM    keeps journals of this program in tests/journals/NAME

A folder of tests/journals contains the journals of a bank's three sites, with each kind of entry: 0.journal, 1.journal
and, with --record all, 2.journal. Beside each is what a start on it sends again and has for each account; and what an
audit answers to all of them, and `rbbank close` to sealed copies.
"""
from __future__ import annotations

import json
import os
import subprocess
import sys
import tempfile
from collections.abc import Iterator
from typing import Any

import report
from site_process import compact, name_of, read, words_of_start

HERE = os.path.dirname(os.path.abspath(__file__))
sys.path.insert(0, os.path.join(os.path.dirname(HERE), "examples", "tools"))
from bank import requests  # noqa: E402

STORED = os.path.join(HERE, "journals")
NEXT = ["--sites", "4", "--account", "zed"]
RECORDS = ["changes", "changes", "all"]  # of each site
MESSAGES = "all that came before"  # in place of events
MADE = requests({"account": "ann", "to": "bob", "cents": 80, "rate": 150, "name": "R1"})
# what happens in a bank whose journals are kept: the site, and its events
STEPS: list[tuple[int, list[Any]]] = [
    (0, [{"deposit": ["ann", 500], "id": "a-1"}, *MADE, {"withdraw": ["bob", 99999]}, {"deposit": ["ann", 500],
         "id": "a-1"}, {"batch": [{"deposit": ["bob", 7]}, {"withdraw": ["ann", 80]}], "id": "a-2"}, {"pass": 2}]),
    (2, [{"balance": "ann"}, MESSAGES, MESSAGES, {"withdraw": ["ann", 1], "id": "c:1"}, {"cancel": "B0.1"},
         {"cancel": "R2"}, {"cancel": "R2"}, {"asof": ["ann", 3]}, {"statement": "bob"}, {"balance": "eve"},
         {"batch": []}, {"apply": "B0.9"}, {"pass": 1}, {"withdraw": ["ann", 1]}]),
    (1, [{"deposit": ["bob", 3]}, MESSAGES, *MADE, {"transfer": ["ann", "bob", 6], "id": "b.1"}]),
    (0, [MESSAGES]), (2, [MESSAGES]),
]


def bank(version: int) -> str:
    return compact({"accounts": [["ann", 0], ["bob", 1000]], "sites": 3, "version": version})


class Kept:
    """A bank's journals in a folder, by their names."""

    def __init__(self, program: str, folder: str) -> None:
        self.program, self.folder = program, folder

    def file(self, name: str) -> str:
        return os.path.join(self.folder, name)

    def run(self, site: int, first: str, events: list[str], resend: int | None, journal: str) -> tuple[str, str, int]:
        """What a site writes and says on its journal, and its status."""
        words = words_of_start(self.program, site, journal, resend, RECORDS[site])
        given = "".join(line + "\n" for line in [first, *events])
        run = subprocess.run(words, input=given, capture_output=True, text=True, timeout=60)
        return run.stdout, run.stderr, run.returncode

    def started(self, site: int, first: str, journal: str) -> tuple[str, str, int]:
        """The same of a start that sends all messages again, and of a question for each account."""
        asked = [compact({"balance": name}) for name, _ in json.loads(first)["accounts"]]
        return self.run(site, first, asked, None, journal)

    def audited(self) -> tuple[str, str, int]:
        paths = [self.file(f"{site}.journal") for site in range(3)]
        run = subprocess.run([self.program, "audit", *paths], capture_output=True, text=True)
        return run.stdout, run.stderr, run.returncode

    def closed(self, folder: str) -> tuple[str, str, int]:
        """What closing the books answers to sealed copies."""
        paths = [os.path.join(folder, f"{site}.sealed") for site in range(3)]
        for site, path in enumerate(paths):
            with open(path, "wb") as copy:
                copy.write(read(self.file(f"{site}.journal"))[:-1] + b"\t")
        run = subprocess.run([self.program, "close", *NEXT, *paths], capture_output=True, text=True)
        return run.stdout, run.stderr, run.returncode

    def make(self, version: int) -> None:
        """Makes the journals, by the steps above."""
        sent: dict[str, str] = {}
        for site, events in STEPS:
            given = [line for event in events
                     for line in (sent.values() if event == MESSAGES else [compact(event)])]
            out, errors, status = self.run(site, bank(version), given, 0, self.file(f"{site}.journal"))
            if (errors, status) != ("", 0):
                raise ValueError(f"site {site} ended in {status}: {errors}")
            for line in out.splitlines():
                sent.update((name_of(message), compact(message)) for message in json.loads(line)["sends"])


def parts_of(kept: Kept, scratch: str) -> Iterator[tuple[str, tuple[str, str, int]]]:
    """What the program answers to kept journals, each with the file that has what is wanted. Copies are written to."""
    for site in range(3):
        journal = read(kept.file(f"{site}.journal"))
        copy = os.path.join(scratch, f"{site}.copy")
        with open(copy, "wb") as file:
            file.write(journal)
        first = journal.split(b"\n")[0].decode()
        yield f"{site}.expected", kept.started(site, first, copy)
    yield "audit.expected", kept.audited()
    yield "next.bank", kept.closed(scratch)


def store(program: str, name: str) -> None:
    for version in (1, 2):
        kept = Kept(program, os.path.join(STORED, f"{name}-lines-{version}"))
        os.makedirs(kept.folder)
        kept.make(version)
        with tempfile.TemporaryDirectory() as scratch:
            for file, (out, errors, status) in parts_of(kept, scratch):
                if (errors, status) != ("", 0):
                    raise ValueError(f"{file}: {status}: {out}{errors}")
                with open(kept.file(file), "w", encoding="utf-8") as expected:
                    expected.write(out)


def results(program: str) -> Iterator[tuple[str, bool]]:
    """Each stored folder, by part, with whether the answers are as wanted, and no journal was changed."""
    for name in sorted(os.listdir(STORED)):
        kept = Kept(program, os.path.join(STORED, name))
        with tempfile.TemporaryDirectory() as scratch:
            for file, ended in parts_of(kept, scratch):
                yield f"{name}: {file}", ended == (read(kept.file(file)).decode(), "", 0)
            yield f"{name}: the journals", all(
                read(os.path.join(scratch, f"{site}.copy")).startswith(read(kept.file(f"{site}.journal"))[:-1])
                for site in range(3))


def main() -> int:
    if sys.argv[1:2] == ["--store"] and len(sys.argv) == 4:
        store(report.program_of(sys.argv[3:], __doc__), sys.argv[2])
        del sys.argv[1:3]
    return report.run(__doc__, results)


if __name__ == "__main__":
    sys.exit(main())
