#!/usr/bin/env python3
"""Closes the books of a bank: makes the first line of the next one from the journals of all sites.

A folder contains a bank's periods. The first line of period 1 is in 0001.bank, and its journals are 0001.0.journal,
0001.1.journal and so on, one for each site. Stop the clients, once each has all its answers, since the next bank knows
no id of this one, and end the sites. Then

    close.py FOLDER --account zed --sites 4

starts the sites of the last period, whose bank's name is 0001, gives each what it lacks of what the others sent, and
ends them. It seals their journals, asks `rbbank close`, and keeps the line as 0002.bank. The next sites are started
with --bank 0002, so that they refuse what comes late of the closed bank. The added accounts start with 0. If the books
can't be closed, nothing is sealed, and what `rbbank close` says is printed: it is asked about sealed copies first.

Whenever it is ended, it can be run again. The next period's files may not be there yet. The status is 0 if the books
are closed, that of `rbbank close` if it says why they aren't, and else 1.
"""
from __future__ import annotations

import argparse
import json
import os
import re
import subprocess
import sys
import tempfile
from typing import NamedTuple

import bank
import journals
from journals import Journal, Json, Site

FIRST = 100  # entries whose messages a site sends again at first; ten times as many each time that isn't enough


class Period(NamedTuple):
    """A period of a bank: the names of its files."""

    folder: str
    number: int

    @property
    def name(self) -> str:
        return f"{self.number:04}"

    @property
    def bank(self) -> str:
        return os.path.join(self.folder, f"{self.name}.bank")

    def journal(self, site: int) -> str:
        return os.path.join(self.folder, f"{self.name}.{site}.journal")

    def files(self) -> list[str]:
        """Those that are there."""
        return sorted(name for name in os.listdir(self.folder) if name.startswith(self.name + "."))


class Closing(NamedTuple):
    """What `rbbank close` answered: its line, its text on standard error, and its status."""

    line: str
    errors: str
    status: int


def options() -> argparse.Namespace:
    described = (__doc__ or "").replace("close.py", os.path.basename(sys.argv[0]))
    reader = argparse.ArgumentParser(description=described, formatter_class=argparse.RawDescriptionHelpFormatter)
    reader.add_argument("folder", metavar="FOLDER", help="where the bank's periods are")
    reader.add_argument("--sites", metavar="N", help="the number of the next bank's sites; else as many as before")
    reader.add_argument("--account", metavar="NAME", action="append", default=[], help="an account that is added")
    reader.add_argument("--program", metavar="PATH", help=journals.WHICH)
    return reader.parse_args()


def last_period(folder: str) -> Period:
    """The last period of a folder."""
    try:
        found = [int(at[1]) for name in os.listdir(folder) if (at := re.fullmatch(r"(\d{4,})\.bank", name))]
    except OSError as why:
        raise bank.Stop(f"{folder}: {why.strerror}") from None
    if not found:
        raise bank.Stop(f"{folder} has no NNNN.bank: the first line of a bank")
    return Period(folder, max(found))


def journals_of(period: Period) -> list[Journal]:
    """The journals of a period, which have to be there."""
    first = bank.read(period.bank).strip()
    try:
        sites = int(json.loads(first)["sites"])
    except (KeyError, TypeError, ValueError):
        raise bank.Stop(f"{period.bank}: no configuration") from None
    paths = [period.journal(site) for site in range(sites)]
    absent = [os.path.basename(path) for path in paths if not os.path.exists(path)]
    if len(absent) == sites:
        raise bank.Stop(f"{period.name} isn't begun: there is no {', '.join(absent)}; a journal of another name is "
                        f"given this one (mv), and a bank without journals is started with --new --bank {period.name}")
    if absent:
        raise bank.Stop(f"only some sites of {period.name} are started: there is no {', '.join(absent)}; bring it "
                        f"here, start the site with --new --bank {period.name} if it never was, or make a lost "
                        "journal again by rbbank-rebuild")
    return [Journal(path) for path in paths]


# ---- what the sites still lack


def lacked(site: Site, applied: list, sent: list[list[Json]]) -> list[Json]:
    """The operations that a site lacks of what the others sent, each behind those that it rests on."""
    messages = [message for other, those in enumerate(sent) if other != site.me for message in those
                if "shadow" in message and not journals.covers(applied, message["shadow"]["name"])]
    return sorted(messages, key=lambda message: journals.behind(message["shadow"]))


def carry(sites: list[Site]) -> None:
    """Gives each site what it lacks, until all have applied the same, or have been given all there is."""
    last = FIRST
    while True:
        abouts = [site.about() for site in sites]
        if all(about["applied"] == abouts[0]["applied"] for about in abouts):
            return
        sent = [site.sent_again(last) for site in sites]
        for site, about in zip(sites, abouts):
            site.ask(lacked(site, about["applied"], sent))
        if last >= max(about["entries"] for about in abouts):
            return
        last *= 10


def made_equal(program: str, name: str, found: list[Journal]) -> None:
    """Starts the sites of the bank of this name on their journals, carries what each lacks, and ends them."""
    sites: list[Site] = []
    try:
        for number, journal in enumerate(found):
            sites.append(Site(program, number, journal.path, journal.first, "--bank", name))
        carry(sites)
        for site in sites:
            sys.stderr.write(site.end())
    finally:
        for site in sites:
            site.close()


# ---- sealing and closing


def closing(program: str, words: list[str], paths: list[str]) -> Closing:
    """What `rbbank close` answers to these journals."""
    run = subprocess.run([program, "close", *words, *paths], capture_output=True)
    return Closing(run.stdout.decode(errors="replace"), run.stderr.decode(errors="replace"), run.returncode)


def of_copies(program: str, words: list[str], found: list[Journal]) -> Closing:
    """The same of sealed copies of the journals, so that none is sealed that can't be closed."""
    with tempfile.TemporaryDirectory(prefix="close-") as folder:
        paths = [os.path.join(folder, os.path.basename(journal.path)) for journal in found]
        for journal, path in zip(found, paths):
            journal.copy(path, journals.SEALED)
        answer = closing(program, words, paths)
    return answer._replace(errors=answer.errors.replace(folder + os.sep, ""))


def seal(program: str, site: int, journal: Journal) -> None:
    """Seals a journal, if it isn't yet."""
    if not journal.is_sealed:
        run = subprocess.run([program, "site", "--me", str(site), "--journal", journal.path, "--seal"],
                             stdin=subprocess.DEVNULL, capture_output=True, text=True)
        if run.returncode != 0:
            raise bank.Stop(f"{journal.path} can't be sealed: {run.stderr.strip()}")


def close(program: str, words: list[str], period: Period) -> Closing:
    """Closes the books of a period, whose sites don't run. The answer is what `rbbank close` says."""
    found = journals_of(period)
    if not any(journal.is_sealed for journal in found):
        made_equal(program, period.name, found)
        found = journals_of(period)
    answer = of_copies(program, words, found)
    if answer.status != 0:
        return answer
    for site, journal in enumerate(found):
        seal(program, site, journal)
    again = closing(program, words, [journal.path for journal in found])
    if again != answer:
        raise bank.Stop(f"a journal changed while it was sealed; now the answer is {again.line}{again.errors}")
    return answer


def open_and_sealed(answer: Closing, period: Period) -> str:
    """What to do with sealed journals, if a site lacks operations."""
    is_open = json.loads(answer.line or "{}").get("fault") == "open"
    sealed = [journal.path for journal in journals_of(period) if journal.is_sealed] if is_open else []
    if not sealed:
        return ""
    return (f"close: nothing is closed yet: put a space in the place of the seal, the last byte of {', '.join(sealed)} "
            "(truncate -s -1 FILE; printf ' ' >> FILE), and run this again\n")


def begin(period: Period, line: str) -> None:
    """Keeps the first line of a period."""
    fresh = os.path.join(period.folder, "new.bank")
    with open(fresh, "w", encoding="utf-8") as file:
        file.write(line)
    journals.store(fresh, period.bank)


def said(closed: Period, period: Period, line: str) -> str:
    """What there is now, and how it goes on."""
    config = json.loads(line)
    cents, sites = sum(cents for _, cents in config["accounts"]), config["sites"]
    names = ", ".join(os.path.basename(period.journal(site)) for site in range(sites))
    return (f"{closed.name} is closed, with {cents} cents. {period.name}.bank is the next bank's first line: "
            f"{len(config['accounts'])} accounts, {sites} sites.\n"
            f"Its journals are {names}; start its sites with --new --bank {period.name}.")


def main() -> int:
    asked = options()
    program, period = journals.program(asked.program), last_period(asked.folder)
    following = period._replace(number=period.number + 1)
    if there := following.files():
        raise bank.Stop(f"{os.path.join(asked.folder, there[0])} is there already, so {following.name} can't begin")
    words = ["--sites", asked.sites] if asked.sites is not None else []
    words += [word for name in asked.account for word in ("--account", name)]
    answer = close(program, words, period)
    if answer.status != 0:
        sys.stdout.write(answer.line)
        sys.stderr.write(answer.errors + open_and_sealed(answer, period))
        return answer.status
    begin(following, answer.line)
    print(said(period, following, answer.line))
    return 0


if __name__ == "__main__":
    bank.stops_in_words("close", main)
