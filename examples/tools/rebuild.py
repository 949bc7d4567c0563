#!/usr/bin/env python3
"""Makes a journal again for a site whose disk is lost, from the journals of all other sites.

    rebuild.py 1 --to 1.journal 0.journal 2.journal

The others' journals come in the order of their sites. End these sites first, else nothing is made, and let the queues
be empty: a message of the lost site that comes later is refused by all, or refuses what is made in its place.

What the lost site sent is in the journals of those that received it. A new site is given the same requests: each once
it has applied just what it had applied before, so that it makes the same operation; of an interest the rate is found
that gives the same cents. The token is passed as the others took it. In the end it has all that the others made. What
no other site received is lost, and so are the ids of the site's requests.

Nothing of this is believed: each message has to be the very one that was received, and `rbbank audit` has to find an
order of all journals. Else no file is made, the status is 1, and what is missing is said.
"""
from __future__ import annotations

import argparse
import json
import os
import subprocess
import sys
import tempfile
from collections import deque
from collections.abc import Iterator
from typing import NamedTuple

import bank
import journals
from journals import Journal, Json, Site

MOST_POINTS = 10_000  # basis points of an interest
FULL, NOT_YOURS = 16, 21  # the refusals of good messages: there was no place, and a token for another site


def options() -> argparse.Namespace:
    described = (__doc__ or "").replace("rebuild.py", os.path.basename(sys.argv[0]))
    reader = argparse.ArgumentParser(description=described, formatter_class=argparse.RawDescriptionHelpFormatter)
    reader.add_argument("site", metavar="SITE", type=int, help="the number of the lost site")
    reader.add_argument("journals", metavar="JOURNAL", nargs="+", help="the journals of all other sites, in order")
    reader.add_argument("--to", metavar="FILE", required=True, help="the journal to make, which isn't there yet")
    reader.add_argument("--program", metavar="PATH", help=journals.WHICH)
    return reader.parse_args()


class Other:
    """Another site: its entries, how many of them have happened, and the messages that it sent, by their keys."""

    def __init__(self, program: str, site: int, journal: Journal, folder: str) -> None:
        self.site, self.journal, self.at = site, journal, 0
        copy = os.path.join(folder, f"{site}.copy")
        journal.copy(copy, journals.AT_REST)
        run = Site(program, site, copy, journal.first)
        self.sent = {journals.key_of(message): message for message in run.sent_again()}
        run.end()
        self.entries = [json.loads(line) for line in journal.lines]

    def received(self) -> Iterator[Json]:
        """The messages that it received, but for those that it refused as bad or as another's."""
        return (entry["event"] for entry in self.entries
                if journals.key_of(entry["event"]) and entry["reply"].get("refused") in (None, FULL, NOT_YOURS))

    def next_receipt(self) -> str | None:
        """The key of what its next entry received, if it did."""
        return journals.key_of(self.entries[self.at]["event"]) if self.at < len(self.entries) else None


class Passing(NamedTuple):
    """The token comes to the lost site, or goes from it: its epoch, the site that it is for, the red ones before."""

    epoch: int
    to: int
    reds: int


def operations(others: list[Other], lost: int) -> list[Json]:
    """The operations of the lost site that others received, each behind those that it rests on."""
    found: dict[str, Json] = {}
    for other in others:
        for event in other.received():
            shadow = event.get("shadow", {})
            if shadow.get("home") == lost and found.setdefault(shadow["name"], shadow) != shadow:
                raise bank.Stop(f"two sites received different operations {shadow['name']}")
    return sorted(found.values(), key=journals.behind)


def reds_of(made: list[Json]) -> list[int]:
    """The numbers of the red ones among operations."""
    return [int(shadow["name"][1:]) for shadow in made if shadow["name"][0] == "R"]


def passings(others: list[Other], lost: int, reds: list[int]) -> list[Passing]:
    """How the token came and went: it went if another took it that none of the others passed. The last time it may
    have come to the lost site without a trace, and then it comes again."""
    passed = [Passing(*message["token"]) for other in others for message in other.sent.values() if "token" in message]
    taken = [Passing(*event["token"]) for other in others for event in other.received() if "token" in event]
    epochs = {passing.epoch for passing in passed}
    went = [passing for passing in taken if passing.epoch not in epochs]
    came = [passing for passing in passed if passing.to == lost]
    found = sorted({*went, *came})
    while found and found[-1].to == lost and not (reds and reds[-1] > found[-1].reds):
        found.pop()
    return found


class Rebuilding:
    """The lost site as it is made again, beside the others: each goes on as far as what it waits for was sent."""

    def __init__(self, others: list[Other], lost: int, site: Site) -> None:
        self.others, self.lost, self.site = others, lost, site
        self.messages = {key: message for other in others for key, message in other.sent.items()}
        made = operations(others, lost)
        self.made, self.passings = deque(made), deque(passings(others, lost, reds_of(made)))
        self.known = {*self.messages, *(shadow["name"] for shadow in made), *map(key_of_passing, self.passings)}
        self.count = len(self.made), sum(passing.to != lost for passing in self.passings)
        self.sent: set[str] = set()     # the keys of what was sent so far, by any site
        self.blue: dict[int, int] = {}  # how many blue operations of each site the lost one has applied
        self.red = 0                    # and how many red ones
        self.needed = 0                 # how many red ones there were when the token came
        self.has_token = lost == 0

    def run(self) -> None:
        while self.others_go_on() or self.passes() or self.makes():
            pass
        if waits := list(self.waits()):
            unknown = next(((who, what) for who, what in waits if what not in self.known), None)
            if unknown is not None:
                raise bank.Stop("no journal has {1}, which comes before {0}".format(*unknown))
            raise bank.Stop("none can come first: " + "; ".join(f"{who} waits for {what}" for who, what in waits))

    def catches_up(self) -> None:
        """The lost site gets all operations that the others made: a sealed journal's site never sends again."""
        made = [message for message in self.messages.values() if "shadow" in message]
        self.site.ask(sorted(made, key=lambda message: journals.behind(message["shadow"])))

    def others_go_on(self) -> bool:
        """The others' entries happen, up to the first receipts of what wasn't sent. Whether any did."""
        before = [other.at for other in self.others]
        for other in self.others:
            while (key := other.next_receipt()) is None or key in self.sent:
                if other.at == len(other.entries):
                    break
                self.sent.update(journals.sent_by(other.entries[other.at]["reply"]))
                other.at += 1
        return before != [other.at for other in self.others]

    def answered(self, event: Json, reply: Json | None, sends: list[Json]) -> None:
        """Gives the lost site an event, of which it has to send just this."""
        answer = self.site.ask([event])[0]
        if answer.get("sends") != sends or reply not in (None, answer["reply"]):
            raise bank.Stop(f"to {bank.compact(event)} site {self.lost} answers {bank.compact(answer)}, "
                            f"and it had sent {bank.compact(sends)}")
        self.sent.update(map(journals.key_of, sends))

    # ---- the token

    def passes(self) -> bool:
        """Takes the token once it was passed, or passes it once the red operations before are made."""
        if not self.passings or not self.may_pass(passing := self.passings[0]):
            return False
        self.passings.popleft()
        self.has_token = passing.to == self.lost
        if self.has_token:
            self.needed = passing.reds
            self.answered({"token": list(passing)}, {"taken": passing.epoch}, [])
        else:
            self.answered({"pass": passing.to}, {"passed": passing.epoch}, [{"token": list(passing)}])
        return True

    def may_pass(self, passing: Passing) -> bool:
        if passing.to == self.lost:
            return key_of_passing(passing) in self.sent
        return self.has_token and max(self.needed, self.red) >= passing.reds

    # ---- operations

    def lacks(self, shadow: Json) -> list[str]:
        """The names of what is applied before an operation, and isn't yet."""
        names = [f"B{home}.{number}" for home, count in journals.counts(shadow["deps"]).items()
                 for number in range(self.blue.get(home, 0) + 1, count + 1)]
        return names + [f"R{number}" for number in range(self.red + 1, shadow["deps"][1] + 1)]

    def needs_token(self, shadow: Json) -> bool:
        """Whether an operation is red, and the token isn't there in its turn."""
        if shadow["name"][0] != "R":
            return False
        return not self.has_token or bool(self.passings) and self.passings[0].reds < int(shadow["name"][1:])

    def makes(self) -> bool:
        """Makes the next operation, once all that is applied before it was sent."""
        if not self.made or self.needs_token(self.made[0]) or not self.sent.issuperset(self.lacks(self.made[0])):
            return False
        shadow = self.made.popleft()
        lacked = [self.messages[name] for name in self.lacks(shadow) if name in self.messages]
        self.site.ask(sorted(lacked, key=lambda message: journals.behind(message["shadow"])))
        self.answered(self.request(shadow), None, [{"shadow": shadow}])
        self.blue, self.red = journals.counts(shadow["deps"]), shadow["deps"][1]
        if shadow["name"][0] == "R":
            self.red += 1
        else:
            self.blue[self.lost] = self.blue.get(self.lost, 0) + 1
        return True

    def request(self, shadow: Json) -> Json:
        """A request of which the lost site makes this operation."""
        verb = "withdraw" if shadow["kind"] == "declined" else shadow["kind"]
        values = shadow | {"cents": shadow["amount"], "name": shadow.get("target")}
        if "rate" in bank.TAKES[verb]:
            values["rate"] = self.rate(shadow["account"], shadow["amount"])
        return bank.command(verb, values)

    def rate(self, account: str, amount: int) -> int:
        """The least rate at which the balance brings this interest, if any brings it."""
        balance = self.site.ask([{"balance": account}])[0]["reply"].get("balance", 0)
        return -(-amount * MOST_POINTS // balance) if balance else 0

    # ---- what is missing

    def waits(self) -> Iterator[tuple[str, str]]:
        """What hasn't happened, each with what it waits for."""
        way = f"the token's way to site {self.lost}"
        if self.made:
            shadow = self.made[0]
            lacked = [name for name in self.lacks(shadow) if name not in self.sent]
            yield f"{shadow['name']} of site {self.lost}", min(lacked, key=self.known.__contains__, default=way)
        if self.passings:
            passing = self.passings[0]
            before = f"R{max(self.needed, self.red) + 1}" if self.has_token else way
            yield key_of_passing(passing), before if passing.to != self.lost else key_of_passing(passing)
        for other in self.others:
            if other.at < len(other.entries):
                yield f"entry {other.at + 1} of site {other.site}", other.next_receipt()


def key_of_passing(passing: Passing) -> str:
    return f"token {passing.epoch}"


def judged(program: str, journal: Journal, others: list[Other]) -> int:
    """Has an audit order all journals. How many entries they have."""
    found = [*journal.lines, *(line for other in others for line in other.journal.lines)]
    run = subprocess.run([program, "audit"], input=b"\n".join([journal.first, *found, b""]), capture_output=True)
    if run.returncode != 0:
        raise bank.Stop(f"an audit finds no order of the journals: {(run.stdout + run.stderr).decode().strip()}")
    return len(found)


def found_others(program: str, lost: int, paths: list[str], folder: str) -> list[Other]:
    """The other sites, from journals of one bank."""
    found = list(map(Journal, paths))
    sites = found[0].sites
    if not 0 <= lost < sites or len(found) != sites - 1:
        raise bank.Stop(f"the bank has {sites} sites: one is lost, and the journals of all others are wanted")
    for journal in found:
        journals.stop_if_in_use(journal.path)
        if journal.first != found[0].first:
            raise bank.Stop(f"{journal.path}: another bank's journal than {found[0].path}")
    numbers = [site for site in range(sites) if site != lost]
    return [Other(program, site, journal, folder) for site, journal in zip(numbers, found)]


def rebuilt(program: str, asked: argparse.Namespace, folder: str) -> str:
    """Makes the journal in a folder, has it judged, and gives it its name. What was done, in words."""
    others = found_others(program, asked.site, asked.journals, folder)
    path = os.path.join(folder, "rebuilt")
    site = Site(program, asked.site, path, others[0].journal.first, "--new")
    try:
        work = Rebuilding(others, asked.site, site)
        work.run()
        work.catches_up()
        site.end()
    finally:
        site.close()
    journal = Journal(path)
    entries = judged(program, journal, others)
    fresh = asked.to + ".new"
    journal.copy(fresh, journals.AT_REST)
    journals.store(fresh, asked.to)
    operations, passed = work.count
    return (f"{asked.to} is the journal of site {asked.site} by what others received. Entries: {len(journal.lines)}, "
            f"own operations: {operations}, passings of the token: {passed}.\nAn audit orders all {entries} entries.\n"
            "Lost are the ids of its requests, and operations that no other site received: what is asked again is made "
            "again.\nFirst start the site, and look in the statements of the request's accounts whether it is there.")


def main() -> int:
    asked = options()
    if os.path.exists(asked.to):
        raise bank.Stop(f"{asked.to} is there already")
    with tempfile.TemporaryDirectory(prefix="rebuild-") as folder:
        print(rebuilt(journals.program(asked.program), asked, folder))
    return 0


if __name__ == "__main__":
    bank.stops_in_words("rebuild", main)
