#!/usr/bin/env python3
"""Runs the tasks of the program over files in place of standard input, and each fault of a file.

usage: files.py [--quiet] PROGRAM      (--quiet prints only what is different)

A file alone is answered as it is on standard input. The journals of all sites are one input of an audit, in any order,
sealed or not, and if a file doesn't end in a line feed. A fault of a line names its file, and the line's number there.
Two names of one file are refused, and a pipe is read once.
"""
from __future__ import annotations

import os
import subprocess
import sys
import tempfile
from collections.abc import Iterator

import report

CONFIG = (
    '{"accounts":[["ann",0]],"blue":1000000,"epoch":4000000000,"history":100000000,"inbox":4096,'
    '"red":1000000,"sites":2,"version":1}\n'
)
MADE = '{"event":{"deposit":["ann",500]},"reply":{"kind":"deposit","name":"B0.1"},"site":0}\n'
SHADOW = '{"account":"ann","amount":500,"deps":[[0,0,0,0,0,0,0,0],0],"home":0,"kind":"deposit","name":"B0.1"}'
CAME = (
    f'{{"event":{{"shadow":{SHADOW}}},"reply":{{"held":"B0.1"}},"site":1}}\n'
    '{"event":{"apply":"B0.1"},"reply":{"applied":"B0.1"},"site":1}\n'
)
BALANCE = '{"event":{"balance":"ann"},"reply":{"balance":500},"site":1}\n'
LONG = '{"event":{"balance":"' + "a" * (1 << 20) + '"}}\n'
FILES = {
    "script": '{"accounts":[["ann",0]],"sites":2,"version":1}\n{"deposit":["ann",500],"site":0}\n',
    "histories": CONFIG + MADE + CAME,
    "0.journal": CONFIG + MADE + " ",  # as a site leaves it
    "1.journal": CONFIG + CAME + "\t",  # sealed
    "whole": CONFIG + MADE,
    "copy": CONFIG + MADE,
    "cut": CONFIG + CAME.rstrip("\n"),  # with no line feed behind the last line
    "head": CONFIG.rstrip("\n"),
    "head.copy": CONFIG.rstrip("\n"),
    "more": CONFIG + BALANCE,
    "other": CONFIG.replace("4096", "4095") + CAME,
    "empty": "",
    "empty.copy": "",
    "blank": "\n \n",
    "wrong": '{"accounts":[]}\n',
    "bad": CONFIG + "\n{}\n",
    "late": CONFIG + CAME + "\n\n{}",
    "long": CONFIG + CAME + LONG,
}
PIPE = "other"  # what the pipe is given, once
TASKS = {"script": "script", "histories": "script", "audit": "histories", "migrate": "histories"}
# the words; what the program writes, and what it says behind `rbbank: `; and its status
RUNS = [
    ("audit 0.journal 1.journal", '{"order":[0,1,1]}', "", 0),
    ("audit 1.journal 0.journal", '{"order":[0,1,1]}', "", 0),
    ("audit whole cut more", '{"order":[0,1,1,1]}', "", 0),
    ("audit head whole cut head.copy", '{"order":[0,1,1]}', "", 0),
    ("audit 1.journal", '{"fault":"stuck","next":[1,1]}', "", 1),
    ("audit whole copy", '{"event":2,"fault":"reply","site":0}', "", 1),
    ("audit whole other", "", "other: another bank's journal\n  its first line has another limit", 2),
    ("audit other whole nowhere", "", "whole: another bank's journal\n  its first line has another limit", 2),
    ("audit whole script", "", "script: another bank's journal\n  its first line has another spelling", 2),
    ("audit whole empty", "", "empty: another bank's journal\n  its first line is no configuration", 2),
    ("audit empty whole", "", "whole: another bank's journal", 2),
    ("audit empty empty.copy", "", "empty: no configuration", 2),
    ("audit whole whole", "", "whole: the same file as whole", 2),
    ("audit other ./whole cut whole", "", "whole: the same file as ./whole", 2),
    ("audit cut nowhere whole linked", "", "linked: the same file as whole", 2),
    ("audit named nowhere whole", "", "whole: the same file as named", 2),
    ("audit whole pipe", "", "pipe: another bank's journal", 2),
    ("audit pipe whole", "", "whole: another bank's journal", 2),
    ("audit blank", "", "blank: no configuration", 2),
    ("audit nowhere", "", "nowhere: No such file or directory (os error 2)", 3),
    ("audit whole nowhere", "", "nowhere: No such file or directory (os error 2)", 3),
    ("script .", "", ".: Is a directory (os error 21)", 3),
    ("audit wrong", "", "wrong: line 1: bad configuration", 2),
    ("audit bad whole", "", "bad: line 3: bad line", 2),
    ("audit whole bad", "", "bad: line 3: bad line", 2),
    ("audit whole cut more late", "", "late: line 6: bad line", 2),
    ("audit whole head long", "", "long: line 4: line too long", 2),
    ("migrate bad", CONFIG.replace('"version":1', '"version":2').rstrip("\n"), "bad: line 3: bad line", 2),
    ("script histories", "", "histories: line 2: bad line", 2),
    ("histories nowhere", "", "nowhere: No such file or directory (os error 2)", 3),
]
REFUSED = ["script script script", "histories script script", "migrate histories histories", "threads script"]
Results = Iterator[tuple[str, bool]]


class Folder:
    """The files in a folder, which the program runs in."""

    def __init__(self, program: str) -> None:
        self.kept = tempfile.TemporaryDirectory()
        self.program, self.path = os.path.abspath(program), self.kept.name
        for name, text in FILES.items():
            with open(os.path.join(self.path, name), "w", encoding="utf-8", newline="") as file:
                file.write(text)
        os.symlink("whole", os.path.join(self.path, "linked"))
        os.link(os.path.join(self.path, "whole"), os.path.join(self.path, "named"))
        os.mkfifo(os.path.join(self.path, "pipe"))

    def ran(self, words: str, given: str = "") -> tuple[str, str, int]:
        """What the program writes and says, and its status."""
        if "pipe" in words.split():
            subprocess.Popen(["timeout", "60", "cp", PIPE, "pipe"], cwd=self.path)
        try:
            run = subprocess.run([self.program, *words.split()], input=given, capture_output=True, text=True,
                                 cwd=self.path, timeout=60)
        except subprocess.TimeoutExpired:
            return "", "no end", -1
        return run.stdout, run.stderr, run.returncode


def results(program: str) -> Results:
    """Each run with whether it is as wanted."""
    folder = Folder(program)
    for task, name in TASKS.items():
        piped = folder.ran(task, FILES[name])
        yield f"{task} {name}", piped[0] != "" and folder.ran(f"{task} {name}") == piped
    for words, out, said, status in RUNS:
        found = folder.ran(words, given="not read\n")
        first = found[1].split("\n  column ")[0].rstrip("\n")
        yield words, (found[0], first, found[2]) == (out and out + "\n", said and f"rbbank: {said}", status)
        yield f"{words}: where", ("\n  column " in found[1]) == ("bad " in said)
    for words in REFUSED:
        out, said, status = folder.ran(words)
        yield words, (out, status) == ("", 2) and said.startswith("error: ")


if __name__ == "__main__":
    sys.exit(report.run(__doc__, results))
