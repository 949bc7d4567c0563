#!/usr/bin/env python3
"""Ends the sites of a bank at random moments, over and over, and looks whether anything that was reported is lost.

Three to five sites run as processes over pipes. Between them a router delays, reorders, repeats and loses messages;
clients ask for everything, each request by an id of its own, and ask it again at the same site until it is answered, at
times once more. Each period's sites have its name (`--bank 0001`): late messages of the closed bank, messages without a
name and requests of the closed bank come too. Each has to be answered by refusal 26, and to leave no entry. Processes
are ended by SIGKILL at random moments, also while they start, and by a limit on the file's size in the middle of a
write, and are started again on their journals. After each end the journal has to be what it was before, then the entry
of each event that was answered and changed the site, with that very answer, and then those of a first part of the
events that were given and not answered. What a site sends again as it starts has to be what its journal says it sent.
A bank lasts for some periods. Between two of them its books are closed by examples/tools/close.py, which is ended at
random moments too, and an account and a site are added (books.py). At the end all messages are sent again and
delivered. Then, and whenever books were closed, all sites have the same operations, an audit orders the journals, each
request that was made has one entry at its site and no other one has any, and each account has to the cent what the
answers to clients come to, over all periods. Last a site's disk is lost: its journal is made again from the others' by
examples/tools/rebuild.py, and all sites go on and agree (lost_disk.py).

It prints its seed and what happened. The same seed makes the same choices, but no two runs end a process at the same
moment. The journals stay where --folder says, or where the run fails.
"""
import argparse
import json
import os
import random
import shutil
import signal
import subprocess
import sys
import tempfile
import time
from collections import Counter

import books
import lost_disk
from site_process import Failed, Site, compact, name_of, names_of, without_bank

sys.path.append(os.path.join(books.ROOT, "examples", "tools"))
from bank import COMMANDS, REQUESTS, command  # noqa: E402

LOST, REPEATED = 0.05, 0.1  # of the messages, how many the router loses, and how many it delivers once more
LONGEST = 300  # messages on their way to a site, beyond which the router loses them
MOST_BYTES = 40_000  # of the lines that are given at once, so that a pipe takes them
LIMITED = 0.15  # of the starts, how many have a limit on the file's size
AT_THE_START = 0.1  # of the ends, how many come while a site starts
ONCE_MORE = 0.03  # of the events of clients, how many are requests that were answered before
LATE = 0.04  # of the events, how many are of another bank
NAMED = 0.5  # of the events of clients, how many have the bank's name
LIMITS = {"blue": 10**6, "epoch": 4 * 10**9, "history": 10**8, "inbox": 4096, "red": 10**6}
STARTS = 1000  # cents of each account of the first period
ACCOUNTS = ("ann", "bob", "eve")


def addressees(message, sites, sender):
    """The sites that a message is for."""
    if "token" in message:
        return [message["token"][1]]
    return [site for site in range(sites) if site != sender]


def behind(message):
    """How many operations its home had applied before a message's operation: fewer than before any that rests on it."""
    blue, red = message["shadow"]["deps"] if "shadow" in message else ([], 0)
    return sum(count[1] if isinstance(count, list) else count for count in blue) + red


class Clients:
    """What clients ask for: everything, of any site, and of the one with the token more often what needs it."""

    def __init__(self, pick, config):
        self.pick, self.sites, self.names, self.holder = pick, config["sites"], [], 0
        self.starts = dict(config["accounts"])
        self.count = 0
        self.answers = [{} for _ in range(self.sites)]  # of each site: the last answer to each request, by its id
        self.operations = {}    # what requests made, by the operations' names, as their answers have them

    def request(self, site):
        pick, accounts, names = self.pick, list(self.starts), self.names[-40:] or ["B0.1"]
        weights = [4 if verb == "deposit" or site == self.holder else 1 for verb in REQUESTS]
        values = {"account": pick.choice(accounts), "to": pick.choice(accounts), "cents": pick.randrange(600),
                  "rate": pick.randrange(30), "name": pick.choice(names)}
        return command(pick.choices(REQUESTS, weights)[0], values)

    def asked(self, request):
        """A request with an id that no other has."""
        self.count += 1
        return request | {"id": f"c-{self.count}"}

    def event(self, site):
        pick, account = self.pick, self.pick.choice(list(self.starts))
        other = pick.random()
        if self.answers[site] and pick.random() < ONCE_MORE:
            return pick.choice(list(self.answers[site].values())[-200:])[0]
        if other < 0.7:
            return self.asked(self.request(site))
        if other < 0.8:
            return self.asked({"batch": [self.request(site) for _ in range(pick.randrange(5))]})
        if other < (0.88 if site == self.holder else 0.81):
            return {"pass": pick.randrange(self.sites)}
        if other < 0.94:
            return {"balance": account}
        if other < 0.96:
            return {"asof": [account, pick.randrange(60)]}
        return {"apply": f"B0.{1 + pick.randrange(99)}"} if other < 0.99 else {"statement": account}

    def answered(self, site, event, answer):
        """Notes the answer to a request, and the operations that it made."""
        self.answers[site][event["id"]] = (event, answer["reply"])
        for message in answer["sends"]:
            self.operations[message["shadow"]["name"]] = message["shadow"]

    def balances(self):
        """The cents of each account, if just these operations were made, each once."""
        cancelled, found = {it.get("target") for it in self.operations.values()}, dict(self.starts)
        for name, it in self.operations.items():
            moved = 0 if name in cancelled else COMMANDS[it["kind"]]["moves"] * it["amount"]
            found[it["account"]] += moved
            if "to" in it:
                found[it["to"]] -= moved
        return found

    def hear(self, site, reply):
        """Notes which operations there are to cancel, and where the token is."""
        self.names += [reply["name"]] if "kind" in reply else reply.get("names", [])
        if "taken" in reply or "passed" in reply:
            self.holder = site if "taken" in reply else None


def first_config(asked, pick):
    """The configuration of the first period."""
    sites = asked.sites or 3 + pick.randrange(3)
    inbox, version = pick.choice([40, 4096]), pick.choice([1, 2])
    return LIMITS | {"accounts": [[name, STARTS] for name in ACCOUNTS], "inbox": inbox, "sites": sites,
                     "version": version}


class Bank:
    """The sites of one period, the messages on their way, and what happened."""

    def __init__(self, program, folder, pick, config, period, closed=()):
        self.program, self.folder, self.pick, self.period = program, folder, pick, period
        self.name, self.closed = f"{period:04}", closed  # the messages of the bank before it
        self.sites = config["sites"]
        self.written = compact(config)
        self.config = compact({key: value for key, value in config.items() if LIMITS.get(key) != value})
        self.clients = Clients(self.pick, config)
        self.wires = [[] for _ in range(self.sites)]
        self.count, self.lossy, self.took = Counter(), True, 0.002
        self.all = [Site(self, number) for number in range(self.sites)]

    def file(self, what):
        """The path of a file of this period."""
        return os.path.join(self.folder, f"{self.name}.{what}")

    def route(self, sender, messages):
        """Puts messages on their way. Some are lost."""
        for message in messages:
            for site in addressees(message, self.sites, sender):
                if self.lossy and (len(self.wires[site]) >= LONGEST or self.pick.random() < LOST):
                    self.count["lost"] += 1
                else:
                    self.wires[site].append(message)

    def arrives(self, wire):
        """Any message of a wire, which may come once more later."""
        at = self.pick.randrange(len(wire))
        if self.pick.random() < REPEATED:
            self.count["repeats"] += 1
            return wire[at]
        wire[at], wire[-1] = wire[-1], wire[at]
        return wire.pop()

    def event(self, site):
        """An event of the router; or of a client, which asks first what got no answer; or of another bank."""
        if self.pick.random() < LATE:
            return self.late(site)
        wire = self.wires[site.number]
        if wire and self.pick.random() < (0.5 if len(wire) < 60 else 0.95):
            return self.arrives(wire)
        if site.unanswered and self.pick.random() < 0.5:
            return site.unanswered.pop(0)
        event = self.clients.event(site.number)
        return event | {"bank": self.name} if self.pick.random() < NAMED else event

    def late(self, site):
        """A message of the closed bank, or a message without a name; or a request of the closed bank, which may have an
        id that a request of this one has."""
        sent = list(site.sent.values())
        kind = self.pick.randrange(3)
        if kind == 0 and self.closed:
            return self.pick.choice(self.closed)
        if kind == 1 and sent:
            return without_bank(self.pick.choice(sent))
        asked = {"bank": f"{self.period - 1:04}", "id": f"c-{1 + self.pick.randrange(self.clients.count + 1)}"}
        return self.clients.request(site.number) | asked

    def sent(self):
        """All messages that its sites sent."""
        return [message for site in self.all for message in site.sent.values()]

    def events(self, site):
        """One event, some, or many, that are given to a site at once: of clients and of the router."""
        number = self.pick.choice([1, 1, 1 + self.pick.randrange(8), 1 + self.pick.randrange(120)])
        given, size = [], 0
        while len(given) < number and size < MOST_BYTES:
            given.append(self.event(site))
            size += len(compact(given[-1])) + 1
        return given

    # ---- how a site runs and ends

    def starts(self, site):
        """Starts a site that doesn't run: with a limit on the file's size at times, and with what it sends again."""
        size = os.path.getsize(site.journal) if os.path.exists(site.journal) else 0
        limited = self.pick.random() < LIMITED
        limit = size + self.pick.randrange(6000) if limited else None
        site.start(self.pick.choices([None, 0, 1, 20], [1, 4, 2, 3])[0], limit, self.pick.random() < 0.5)
        if self.pick.random() < AT_THE_START:
            time.sleep(self.pick.random() * 0.01)
            self.ends(site)

    def ends(self, site):
        """Ends a process where it hasn't ended, and counts how it did."""
        status, at_rest = site.kill()
        self.count["kills"] += 1
        self.count["in a write"] += status in (3, -signal.SIGXFSZ)
        self.count["torn"] += not at_rest

    def turn(self):
        """Gives a site some events. At times its process is ended before it can have answered them all."""
        site = self.pick.choice(self.all)
        if site.process is None:
            return self.starts(site)
        begun = time.monotonic()
        site.ask(self.events(site))
        if self.pick.random() < 0.3:
            time.sleep(self.pick.random() * 1.3 * self.took)
            return self.ends(site)
        if not site.wait():
            return self.ends(site)
        self.took += (time.monotonic() - begun - self.took) * 0.1
        return None

    # ---- the end of a run

    def answer_all(self):
        """Starts all sites again, and asks each request that has no answer until it has one."""
        for site in self.all:
            if site.process is not None:
                self.ends(site)
        self.lossy, self.wires = False, [[] for _ in range(self.sites)]
        for site in self.all:
            site.start()
            left, site.unanswered = site.unanswered + [{"balance": ACCOUNTS[0]}], []
            while left:
                part, left = left[:100], left[100:]
                site.ask(part)
                if not site.wait():
                    raise Failed(f"site {site.number} ended by itself: {site.ended()}")

    def settle(self):
        """Starts all sites again, and delivers all that each of them ever sent until every site has all of it."""
        self.answer_all()
        kept = [list(wire) for wire in self.wires]
        for _ in range(200):
            if not self.deliver(kept):
                return
        raise Failed("what was delivered again and again isn't applied everywhere")

    def deliver(self, wires):
        """Delivers each message of these wires that isn't applied, and says whether one wasn't."""
        delivered = False
        for site, wire in zip(self.all, wires):
            done = {reply for line in site.entries + site.wanted for reply in names_of(json.loads(line)["reply"])}
            left = [message for message in wire if name_of(message) not in done]
            delivered = delivered or bool(left)
            left.sort(key=behind)
            while left:
                part, left = left[:100], left[100:]
                site.ask(part)
                if not site.wait():
                    raise Failed(f"site {site.number} ended by itself")
        return delivered

    def compare(self):
        """Ends all sites, which have the same balances and operations: the balances that were answered for."""
        asked, answers = [{"balance": name} for name in self.clients.starts], []
        for site in self.all:
            site.ask(asked)
            if not site.wait():
                raise Failed(f"site {site.number} ended by itself")
            answers.append([reply["balance"] for reply in site.replies[-len(asked):]])
            site.close()
        if any(each != list(self.clients.balances().values()) for each in answers):
            raise Failed(f"the sites have {compact(answers)}, and what was answered to clients comes to "
                         f"{compact(self.clients.balances())}")

    def applied(self):
        """How many operations the sites applied, which are the same at all of them."""
        operations = [sorted(name for line in site.entries for name in names_of(json.loads(line)["reply"])
                             if name[0] in "BR") for site in self.all]
        if any(each != operations[0] for each in operations):
            raise Failed("the sites applied different operations")
        return len(operations[0])

    def once(self):
        """Each request that was made has one entry, at its site, and no other one has any."""
        for site, answers in zip(self.all, self.clients.answers):
            found = Counter(json.loads(line).get("id") for line in site.entries)
            found.pop(None, None)
            made = Counter(asked for asked, (_, reply) in answers.items() if "refused" not in reply)
            if found != made:
                differ = compact((found - made) + (made - found))
                raise Failed(f"entries and answers differ at site {site.number}: {differ}")

    def audit(self):
        """Has an audit order the journals."""
        run = subprocess.run([self.program, "audit", *(site.journal for site in self.all)], capture_output=True)
        entries = sum(len(site.entries) for site in self.all)
        if run.returncode != 0 or len(json.loads(run.stdout).get("order", [])) != entries:
            raise Failed(f"the audit says {run.stdout[:300].decode()} {run.stderr.decode()}")
        return entries

    def stop(self):
        """Ends all processes."""
        for site in self.all:
            if site.process is not None:
                site.process.kill()
                site.process.wait()


def shares(kills, periods):
    """How many ends of a process each period has."""
    return [kills * (at + 1) // periods - kills * at // periods for at in range(periods)]


def run(asked, folder):
    """A whole run, period by period. What happened in each, in lines."""
    pick = random.Random(asked.seed)
    config, moved, closed = first_config(asked, pick), 0, []
    for period, kills in enumerate(shares(asked.kills, asked.periods), 1):
        bank = Bank(os.path.abspath(asked.program), folder, pick, config, period, closed)
        try:
            while bank.count["kills"] < kills:
                bank.turn()
            if period < asked.periods:
                config = books.close(bank, f"zed-{period + 1}")
            else:
                bank.settle()
                bank.compare()
            bank.once()
            yield happened(bank, bank.applied(), bank.audit())
            closed = bank.sent()
            moved += sum(bank.clients.balances().values()) - sum(bank.clients.starts.values())
            if period == asked.periods:
                yield lost_disk.lose(bank)
        finally:
            bank.stop()
    total, wanted = sum(bank.clients.balances().values()), STARTS * len(ACCOUNTS) + moved
    if total != wanted:
        raise Failed(f"the bank has {total} cents, and the answers to its clients in all periods come to {wanted}")
    yield f"  In all periods the accounts got {moved} cents, which they have."


def happened(bank, operations, entries):
    """What happened in a period, in lines."""
    count = bank.count
    cents = ", ".join(f"{name} {cents}" for name, cents in bank.clients.balances().items())
    return (f"  period {bank.period}: {bank.sites} sites, {count['events']:,} events answered, {count['kills']} kills "
            f"({count['in a write']} in a write, {count['closing']} while books were closed), {count['torn']} torn "
            f"ends,\n  {count['unreported']:,} entries recorded and not reported, {count['again']:,} requests answered "
            f"again, {count['lost']:,} messages lost, {count['repeats']:,} repeats, {count['other banks']:,} lines of "
            f"other banks.\n"
            f"  All sites have {cents} after {operations:,} operations; the audit orders {entries:,} entries.")


def options():
    reader = argparse.ArgumentParser(description=__doc__, formatter_class=argparse.RawDescriptionHelpFormatter)
    reader.add_argument("program", metavar="PROGRAM", help="a built rbbank")
    reader.add_argument("--kills", metavar="N", type=int, default=200, help="how many ends of a process, 200")
    reader.add_argument("--sites", metavar="N", type=int, choices=range(2, 9), help="2 to 8; else 3 to 5 by the seed")
    reader.add_argument("--periods", metavar="N", type=int, choices=range(1, 9), default=3, help="1 to 8; else 3")
    reader.add_argument("--seed", metavar="N", type=int, help="another seed makes other choices; else by the clock")
    reader.add_argument("--quiet", action="store_true", help="print only what failed")
    reader.add_argument("--folder", metavar="PATH", help="an empty folder for the journals, which stay there")
    asked = reader.parse_args()
    if not os.access(asked.program, os.X_OK) or os.path.isdir(asked.program):
        reader.error(f"{asked.program}: no program")
    if asked.folder and os.path.exists(asked.folder) and (not os.path.isdir(asked.folder) or os.listdir(asked.folder)):
        reader.error(f"{asked.folder}: no empty folder")
    asked.seed = int(time.time()) % 10**6 if asked.seed is None else asked.seed
    return asked


def main():
    asked = options()
    if asked.folder:
        os.makedirs(asked.folder, exist_ok=True)
    folder = asked.folder or tempfile.mkdtemp(prefix="crash-")
    try:
        if not asked.quiet:
            print(f"seed {asked.seed}:", flush=True)
        for lines in run(asked, folder):
            if not asked.quiet:
                print(lines, flush=True)
    except Failed as why:
        print(f"crash: {why}\nseed {asked.seed}; the journals are in {folder}")
        return 1
    except KeyboardInterrupt:
        return 130
    if not asked.folder:
        shutil.rmtree(folder)
    return 0


if __name__ == "__main__":
    sys.exit(main())
