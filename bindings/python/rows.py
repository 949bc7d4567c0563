#!/usr/bin/env python3
"""The commands of the program over the Python module, for check.py: what each writes has to be what the program writes.

usage: rows.py script|audit|migrate|bank < LINES
       rows.py site|journal --me S --journal FILE [--new] [--resend N] [--record all] < LINES
       rows.py close [--sites N] [--account NAME].. JOURNAL..
       rows.py calls COUNT < TWO LINES

`bank` answers a script line by line. `site` keeps the journal itself, `journal` by `Journal`. `calls` gives the second
line COUNT times to the bank of the first, and writes nothing, for bench/bindings.py. A fault is `rbbank: line N`
without its kind.
"""
import argparse
import itertools
import os
import re
import sys

import rbbank


def is_blank(line):
    return not line.strip(b" \t\r")


def lines_of(data):
    """The lines that aren't blank, each with its number."""
    return [(number, line) for number, line in enumerate(data.split(b"\n"), 1) if not is_blank(line)]


class Stop(Exception):
    """A fault of the input, in words, without why."""

    def __init__(self, words):
        super().__init__(re.sub(": (column|it is an entry).*", "", str(words)))


def write(text):
    sys.stdout.write(text)
    sys.stdout.flush()


def whole(word, data):
    """A whole run."""
    try:
        if word == "audit":
            found = rbbank.audit(data)
            write(found.line + "\n")
            return 0 if found.certified else 1
        write({"script": rbbank.script, "migrate": rbbank.migrate}[word](data))
        return 0
    except rbbank.LineFault as fault:
        write(fault.written)
        raise Stop(fault) from None


def first(lines):
    if not lines:
        raise Stop("no configuration")
    return lines[0]


def bank(data):
    """A script, a line at a time."""
    lines = lines_of(data)
    number, config = first(lines)
    try:
        with rbbank.Bank(config) as sites:
            for number, line in lines[1:]:
                write(sites.answer(line) + "\n")
    except rbbank.BadLine:
        raise Stop(f"line {number}") from None
    return 0


def calls(data, count):
    """One command over and over."""
    config, line = data.split(b"\n")[:2]
    with rbbank.Bank(config) as sites:
        for _ in range(count):
            sites.answer(line)
    return 0


def whole_lines(data):
    """The lines of a journal up to what a crash left: each begins with a brace, and has its line feed."""
    end = 0
    while data[end:end + 1] == b"{" and b"\n" in data[end:]:
        end = data.index(b"\n", end) + 1
    return data[:end]


def replay(site, journal, config, resend):
    """Gives a site what its journal has, and then writes again what the last entries sent."""
    before = whole_lines(journal)
    if not before.startswith(config) and (before or journal[:1] not in (b"", b" ")):
        raise Stop("another bank's journal")
    entries, again = before[len(config):].splitlines(), ""
    for number, entry in enumerate(entries):
        try:
            sends = site.replay(entry)
        except rbbank.BadLine:
            raise Stop(f"journal line {number + 2}: bad line") from None
        except rbbank.WrongReply:
            raise Stop(f"journal line {number + 2}: wrong reply") from None
        if sends and (resend is None or number >= len(entries) - resend):
            again += sends + "\n"
    write(again)
    return before or config


def answered(at, number, line, journal):
    """The answer to a line, whose entries are in the journal before. A site goes on after a bad line."""
    try:
        answer = at.answer(line)
    except rbbank.BadLine:
        return f'{{"bad":"line","line":{number}}}'
    journal.write(at.entries())
    journal.flush()
    return answer


def asked_of(words):
    """What the words say of a site."""
    asked = argparse.ArgumentParser()
    asked.add_argument("--me", type=int)
    asked.add_argument("--journal")
    asked.add_argument("--new", action="store_true")
    asked.add_argument("--resend", type=int)
    asked.add_argument("--record", choices=["all"])
    return asked.parse_args(words)


def stored(given):
    """What the journal's file has, which is there unless it is new."""
    if not os.path.exists(given.journal):
        if not given.new:
            raise Stop("no journal")
        return b""
    before = read(given.journal)
    if given.new and before:
        raise Stop("there is a journal")
    return before


def site(given, data):
    """A site with its journal, which is written before the answer is."""
    lines = lines_of(data)
    number, config = first(lines)
    try:
        with rbbank.Site(given.me, config) as at:
            kept = replay(at, stored(given), at.entries(), given.resend)
            with open(given.journal, "wb") as journal:
                journal.write(kept)
                for number, line in lines[1:]:
                    write(answered(at, number, line, journal) + "\n")
                journal.write(b" ")
    except rbbank.NoSuchSite:
        raise Stop("no such site") from None
    except rbbank.BadLine:
        raise Stop(f"line {number}") from None
    return 0


def opened(given, number, config):
    """A site whose journal the library keeps, by the configuration on the line of this number."""
    try:
        resend = sys.maxsize if given.resend is None else given.resend
        return rbbank.Journal(given.journal, given.me, config, resend, given.new)
    except rbbank.NoSuchSite:
        raise Stop("no such site") from None
    except rbbank.BadLine:
        raise Stop(f"line {number}") from None
    except rbbank.JournalFault as fault:
        raise Stop("journal is sealed" if fault.reason == "sealed" else str(fault)) from None
    except BlockingIOError:
        raise Stop("journal is in use") from None


def journal(given, data):
    """A site whose journal the library keeps. It counts its lines itself, so that the blank ones are given as well."""
    number, config = first(lines_of(data))
    with opened(given, number, config) as at:
        lines = data.split(b"\n")
        answers = (taken(at, line) for line in lines[:number - 1] + lines[number:])
        for answer in filter(None, itertools.chain([at.reply()], answers)):
            write(answer + "\n")
    return 0


def taken(at, line):
    """The answer to a line, or what is said of one that isn't taken."""
    try:
        return at.answer(line)
    except rbbank.BadLine:
        return at.reply()


def read(path):
    with open(path, "rb") as file:
        return file.read()


def close(words):
    """Closes the books by the journals in these files."""
    asked = argparse.ArgumentParser()
    asked.add_argument("--sites", type=int)
    asked.add_argument("--account", action="append", default=[])
    asked.add_argument("journals", nargs="*")
    given = asked.parse_intermixed_args(words)
    try:
        books = rbbank.close(map(read, given.journals), given.sites, given.account)
    except rbbank.CloseFault as fault:
        text = re.sub(r"^journal (\d+)", lambda found: given.journals[int(found[1])], str(fault))
        raise Stop(text) from None
    write(books.line + "\n")
    return 0 if books.closed else 1


def main(words):
    if words == [] or words[0] in ("-h", "--help"):
        print(__doc__)
        return 2
    if words[0] == "close":
        return close(words[1:])
    data = sys.stdin.buffer.read()
    if words[0] in ("site", "journal"):
        return {"site": site, "journal": journal}[words[0]](asked_of(words[1:]), data)
    if words[0] == "calls":
        return calls(data, int(words[1]))
    return bank(data) if words[0] == "bank" else whole(words[0], data)


if __name__ == "__main__":
    try:
        sys.exit(main(sys.argv[1:]))
    except Stop as why:
        print(f"rbbank: {why}", file=sys.stderr)
        sys.exit(2)
