#!/usr/bin/env python3
"""Runs every script, all histories, every migration and every site of examples/ through a built program, and compares
what it writes, what it says on standard error, its status, and a site's journal. What the program's own help shows is
run as well, its version is looked at, and the histories of every script and runs of tellers are audited.

usage: check.py [--quiet] PROGRAM      (--quiet prints only what is different)
"""
import os
import re
import subprocess
import sys
import tempfile

import bank


def stored(path, otherwise):
    """What a file has, where it is there."""
    if not os.path.exists(path):
        return otherwise
    with open(path, "rb") as text:
        return text.read()


def expected(stem):
    """What the run of an example writes, the fault that it reports, and its status."""
    return stored(stem + ".expected", b""), stored(stem + ".fault", b""), int(stored(stem + ".status", b"0"))


def answered(program, path):
    with open(path, "rb") as given:
        run = subprocess.run([program, bank.word_of(path)], stdin=given, capture_output=True)
    return run.stdout, run.stderr, run.returncode


def site_answered(program, path):
    """What a site writes, but for the reasons of bad lines, and its journal at the end, which begins as the example has
    it."""
    stem = path.removesuffix(".jsonl")
    before = stored(stem + ".before", None)
    with tempfile.TemporaryDirectory() as folder, open(path, "rb") as given:
        journal = os.path.join(folder, "journal")
        if before is not None:
            with open(journal, "wb") as file:
                file.write(before)
        words = [program, "site", *stored(stem + ".words", b"").decode().split(), "--journal", journal]
        run = subprocess.run(words, stdin=given, capture_output=True)
        errors = run.stderr.replace((folder + os.sep).encode(), b"")
        return (bank.without_why(run.stdout), errors, run.returncode), stored(journal, None)


def is_same(program, path):
    """Whether an example is answered as it is stored. A journal is compared where one is stored."""
    stem = path.removesuffix(".jsonl")
    if bank.word_of(path) != "site":
        return answered(program, path) == expected(stem)
    run, journal = site_answered(program, path)
    return run == expected(stem) and journal == stored(stem + ".journal", journal)


def shown(program, command):
    """The parts of a command's help that are indented and have lines: its worked input, the answer, and examples. What
    is indented further is the rest of the line above it."""
    text = subprocess.run([program, command, "--help"], capture_output=True, text=True).stdout.replace("\n    ", "")
    return [part for part in re.findall(r"(?m)(?:^  \S.*\n)+", text) if "{" in part]


def helps(program, command):
    """Whether the input that help shows is answered as it shows. An audit's answer is the first of those it lists."""
    given, told = shown(program, command)[:2]
    with tempfile.TemporaryDirectory() as folder:
        options = ["--me", "0", "--journal", os.path.join(folder, "journal"), "--new"] if command == "site" else []
        words = [program, command, *options]
        run = subprocess.run(words, input=given.replace("\n  ", "\n")[2:], capture_output=True, text=True)
    if command == "audit":
        told = told.split("   ")[0] + "\n"
    return (run.stdout, run.stderr, run.returncode) == (told.replace("\n  ", "\n")[2:], "", 0)


def tells_version(program):
    run = subprocess.run([program, "--version"], capture_output=True)
    return (run.stdout, run.stderr, run.returncode) == (b"rbbank 2.0.0\n", b"", 0)


def tellers(program, sites, count):
    """Whether an audit finds an order of what a run of tellers wrote, in which each of them made its hundred calls."""
    words = ["threads", "--sites", str(sites), "--tellers", str(count), "--seed", "7"]
    run = subprocess.run([program, *words], capture_output=True, text=True)
    audit = subprocess.run([program, "audit"], input=run.stdout, capture_output=True, text=True)
    calls = [line for line in run.stdout.splitlines()[1:] if not re.match(r'{"event":{"(shadow|token|apply)"', line)]
    fine = (run.stderr, run.returncode, audit.stderr, audit.returncode) == ("", 0, "", 0)
    return fine and audit.stdout.startswith('{"order":[') and len(calls) == 100 * count


def histories(program, path):
    """Whether an audit finds an order of the histories of a script, and these are those that are stored, if any are; or
    they end in the script's fault."""
    with open(path, "rb") as given:
        run = subprocess.run([program, "histories"], stdin=given, capture_output=True)
    _, fault, status = expected(path.removesuffix(".jsonl"))
    if status:
        return (run.stdout, run.stderr, run.returncode) == (b"", fault, status)
    name = os.path.basename(path).removesuffix(".jsonl") + ".histories.jsonl"
    audit = subprocess.run([program, "audit"], input=run.stdout, capture_output=True)
    fine = (run.stderr, run.returncode, audit.stderr, audit.returncode) == (b"", 0, b"", 0)
    return fine and audit.stdout.startswith(b'{"order":[') and stored(bank.example(name), run.stdout) == run.stdout


def main():
    words = [word for word in sys.argv[1:] if word != "--quiet"]
    if len(words) != 1 or words[0] in ("-h", "--help"):
        print(__doc__)
        sys.exit(0 if words in (["--help"], ["-h"]) else 2)
    if not os.access(words[0], os.X_OK) or os.path.isdir(words[0]):
        sys.exit(f"check: {words[0]}: no program")
    paths = bank.examples()
    same = [is_same(words[0], path) for path in paths]
    results = list(zip(map(os.path.basename, paths), same))
    commands = ["script", "histories", "audit", "migrate", "site"]
    results += [(command + " --help", helps(words[0], command)) for command in commands]
    scripts = [path for path in paths if bank.word_of(path) == "script"]
    results += [(os.path.basename(path) + ", its histories", histories(words[0], path)) for path in scripts]
    results.append(("--version", tells_version(words[0])))
    for sites, count in [(2, 1), (3, 4), (8, 16), (16, 16)]:
        results.append((f"threads at {sites} sites, audited", tellers(words[0], sites, count)))
    for name, same in results:
        if not same or "--quiet" not in sys.argv[1:]:
            print(f"{'same' if same else 'DIFFERENT'}  {name}")
    sys.exit(0 if all(same for _, same in results) else 1)


bank.stops_in_words("check", main)
