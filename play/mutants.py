#!/usr/bin/env python3
"""Tries the mutants of the page and its server: each patch of play/mutants, on a copy, has to be caught.

usage: mutants.py [--remote URL] PROGRAM

A patch begins with what is wrong in it, and with the check that has to fail: check.py, or a check of browse.py. The
check passes without the patch first. Without a browser those of browse.py aren't tried, and the status is 77.
"""
from __future__ import annotations

import glob
import os
import re
import shutil
import subprocess
import sys
import tempfile

sys.dont_write_bytecode = True
import child
import bank

MUTANTS = os.path.join(child.HERE, "mutants")
NO_BROWSER = 77
PARTS = ("play", "examples", "docs", "crates.txt")


def copied(folder: str) -> None:
    """Copies what the server reads."""
    for part in PARTS:
        source, copy = os.path.join(bank.ROOT, part), os.path.join(folder, part)
        if os.path.isdir(source):
            shutil.copytree(source, copy, ignore=shutil.ignore_patterns("__pycache__"))
        else:
            shutil.copy(source, copy)


def applied(folder: str, patch: str) -> bool:
    run = subprocess.run(["git", "apply", "--unsafe-paths", patch], cwd=folder, capture_output=True, text=True)
    if run.returncode:
        print(run.stderr.strip())
    return run.returncode == 0


def status_of(folder: str, check: str, words: list[str]) -> int:
    """How a check ends, in this folder."""
    script, *only = check.split()
    options = ["--quiet"] if script == "check.py" else ["--few", "--only", only[0], *words[:-1]]
    run = [sys.executable, os.path.join(folder, "play", script), *options, words[-1]]
    return subprocess.run(run, capture_output=True).returncode


def tried(patch: str, words: list[str], passed: dict[str, int]) -> str:
    """What became of a mutant."""
    check = re.search(r"(?m)^caught by: (.*)$", bank.read(patch).decode()).group(1)
    with tempfile.TemporaryDirectory() as folder:
        copied(folder)
        if check not in passed:
            passed[check] = status_of(folder, check, words)
        if passed[check]:
            return "NOT TRIED" if passed[check] == NO_BROWSER else f"NOT TRIED: {check} fails without it"
        if not applied(folder, patch):
            return "DOESN'T APPLY"
        return "caught" if status_of(folder, check, words) == 1 else "NOT CAUGHT"


def main() -> int:
    words = sys.argv[1:]
    if len(words) not in (1, 3) or words[-1].startswith("-"):
        print(__doc__)
        return 0 if words in (["--help"], ["-h"]) else 2
    words[-1] = os.path.abspath(words[-1])
    found, passed = {}, {}
    for patch in sorted(glob.glob(os.path.join(MUTANTS, "*.patch"))):
        name = os.path.basename(patch).removesuffix(".patch")
        found[name] = tried(patch, words, passed)
        print(f"{found[name]:10} {name}", flush=True)
    if all(end == "caught" for end in found.values()):
        return 0
    return NO_BROWSER if set(found.values()) <= {"caught", "NOT TRIED"} else 1


if __name__ == "__main__":
    bank.stops_in_words("mutants", main)
