#!/usr/bin/env python3
"""Compares two programs on random scripts, and on histories of random sites with forged messages.

usage: fuzz.py OTHER_PROGRAM PROGRAM [--runs N] [--seed N]

PROGRAM is rbbank: histories come from its word `site`, which answers forged messages too.
"""
import argparse
import json
import os
import random
import subprocess
import sys
import tempfile

sys.dont_write_bytecode = True
sys.path.append(os.path.join(os.path.dirname(os.path.abspath(__file__)), "..", "..", "examples", "tools"))
from bank import KINDS, REQUESTS, TAKES, command  # noqa: E402

NAMES = ["ann", "bob", "c", "d.e_f-9", "a-name-of-32-bytes-0123456789.ab", "eight-88", "nine-bytes"]
AMOUNTS = [0, 1, 2, 5, 50, 100, 500, 99_999_999_999, 100_000_000_000, 100_000_000_001]
LIMITS = {"blue": 1_000_000, "red": 1_000_000, "inbox": 4_096, "history": 100_000_000, "epoch": 4_000_000_000}
COMMANDS = ["deposit"] * 3 + ["cancel"] + [verb for verb in TAKES if verb not in ("deliver", "apply", "pass")]


class Fuzz:
    def __init__(self, seed):
        self.random = random.Random(seed)
        self.version = self.pick([1, 2])
        self.sites = self.random.randint(2, 4) if self.one_in(2) else self.random.randint(2, 8 * self.version)
        self.names = self.random.sample(NAMES, self.random.randint(1, len(NAMES)))

    def pick(self, items):
        return self.random.choice(items)

    def one_in(self, n):
        return self.random.randrange(n) == 0

    def bank(self):
        accounts = [[name, self.pick([0, 10, 1000, 100_000_000_000])] for name in self.names]
        lowered = {key: self.random.randint(1, 8) for key in LIMITS if self.one_in(10)}
        return {"accounts": accounts, "sites": self.sites, "version": self.version} | lowered

    def account(self):
        return "zed" if self.one_in(30) else self.pick(self.names)

    def amount(self):
        return self.pick(AMOUNTS) if self.one_in(8) else self.random.randint(1, 60)

    def name(self):
        number = self.random.randint(0, 1 if self.one_in(20) else 12)
        site = self.random.randrange(self.sites + (1 if self.one_in(20) else 0))
        return f"R{number}" if self.one_in(2) else f"B{site}.{number}"

    def rate(self):
        return self.pick([0, 1, 150, 9_999, 10_000, 10_001, 4_294_967_295])

    def requests(self):
        count = self.pick([0, 17]) if self.one_in(20) else self.random.randint(1, 4)
        return [self.asked(self.pick(["deposit", *REQUESTS])) for _ in range(count)]

    def asked(self, verb):
        values = {"account": self.account, "to": self.account, "cents": self.amount, "rate": self.rate,
                  "name": self.name, "requests": self.requests, "position": lambda: self.random.randint(0, 30)}
        return command(verb, {field: values[field]() for field in TAKES[verb]})

    def event(self):
        return self.asked(self.pick(COMMANDS))

    def command(self):
        turn = self.random.randrange(10)
        if turn < 4:
            event = self.event()
        elif turn < 7:
            event = {"deliver": self.random.randint(0, 60)}
        elif turn < 9:
            event = {"apply": self.name()}
        else:
            event = {"pass": self.random.randrange(self.sites + 1)}
        site = self.random.randrange(self.sites + (1 if self.one_in(30) else 0))
        return event | {"site": site if self.one_in(3) else site % 2}

    def clock(self):
        counts = [self.random.randint(0, 2) if self.one_in(3) else 0 for _ in range(16)]
        if self.version == 1:
            return [counts[:8], self.random.randint(0, 2)]
        return [[[site, count] for site, count in enumerate(counts) if count], self.random.randint(0, 2)]

    def forged(self, messages):
        """A message that may have been sent, maybe changed, or one that was made up."""
        if self.one_in(8):
            return {"token": [self.random.randint(0, 6), self.random.randrange(self.sites), self.random.randint(0, 3)]}
        if messages and not self.one_in(8):
            message = json.loads(self.pick(messages))
        else:
            message = {"shadow": {"account": self.account(), "amount": self.amount(), "deps": self.clock(),
                                  "home": self.random.randrange(self.sites), "kind": "deposit", "name": self.name()}}
        if "shadow" in message and self.one_in(6):
            self.change(message["shadow"])
        return message

    def change(self, shadow):
        changes = {"account": self.account, "amount": self.amount, "deps": self.clock, "name": self.name,
                   "home": lambda: self.random.randrange(self.sites + 1), "kind": lambda: self.pick(KINDS)}
        for key in self.random.sample(sorted(changes), self.random.randint(1, 2)):
            shadow[key] = changes[key]()
        shadow.pop("target", None)
        shadow.pop("to", None)
        if shadow["kind"] == "cancel":
            shadow["target"] = self.name()
        if shadow["kind"] == "transfer":
            shadow["to"] = self.account()


def text(lines):
    return "".join(json.dumps(line, separators=(",", ":"), sort_keys=True) + "\n" for line in lines).encode()


def answers(programs, word, given):
    """What the programs answer, or None where it isn't the same."""
    runs = [subprocess.run([program, word], input=given, capture_output=True) for program in programs]
    results = [(run.stdout, run.stderr, run.returncode) for run in runs]
    return results[0] if results[0] == results[1] else None


def journals(program, fuzz, folder):
    """The bank and the histories of sites that ran for some rounds on messages of each other, some of them forged."""
    bank, messages = fuzz.bank(), []
    for _ in range(4):
        for site in range(fuzz.sites):
            count = fuzz.random.randint(0, 12)
            lines = [fuzz.event() if fuzz.one_in(3) else fuzz.forged(messages) for _ in range(count)]
            if fuzz.one_in(3):
                lines.append({"pass": fuzz.random.randrange(fuzz.sites)})
            journal = os.path.join(folder, str(site))
            words = [program, "site", "--me", str(site), "--journal", journal]
            words += [] if os.path.exists(journal) else ["--new"]
            run = subprocess.run(words, input=text([bank, *lines]), capture_output=True, check=True)
            for line in run.stdout.splitlines():
                messages += [json.dumps(sent) for sent in json.loads(line)["sends"]]
    journals = (open(os.path.join(folder, str(site)), "rb").read() for site in range(fuzz.sites))
    parts = [journal.rstrip(b" ").split(b"\n", 1) for journal in journals]
    return parts[0][0] + b"\n", [entries.splitlines(keepends=True) for _, entries in parts]


def mixed(fuzz, histories):
    """The lines of all histories in a random order, each history's in its own."""
    turns = [site for site, entries in enumerate(histories) for _ in entries]
    if fuzz.one_in(2):
        fuzz.random.shuffle(turns)
    lines = [iter(entries) for entries in histories]
    return [next(lines[site]) for site in turns]


def spoilt(fuzz, lines):
    """The lines with one reply changed."""
    entry = json.loads(lines[at := fuzz.random.randrange(len(lines))])
    entry["reply"] = fuzz.pick([json.loads(fuzz.pick(lines))["reply"], {"refused": 7}, {"balance": 1}])
    return lines[:at] + [text([entry])] + lines[at + 1:]


def main():
    parser = argparse.ArgumentParser(description=__doc__, formatter_class=argparse.RawDescriptionHelpFormatter)
    parser.add_argument("programs", nargs=2)
    parser.add_argument("--runs", type=int, default=200)
    parser.add_argument("--seed", type=int, default=1)
    given = parser.parse_args()
    programs, seen = [os.path.abspath(program) for program in given.programs], {}
    for seed in range(given.seed, given.seed + given.runs):
        fuzz = Fuzz(seed)
        inputs = [("script", text([fuzz.bank(), *(fuzz.command() for _ in range(fuzz.random.randint(0, 400)))]))]
        with tempfile.TemporaryDirectory() as folder:
            bank, histories = journals(programs[1], fuzz, folder)
        lines = mixed(fuzz, histories)
        inputs += [(word, bank + b"".join(lines)) for word in ("audit", "migrate")]
        if lines:
            inputs.append(("audit", bank + b"".join(spoilt(fuzz, lines))))
        for word, input_ in inputs:
            answer = answers(programs, word, input_)
            if answer is None:
                with open(os.path.join(tempfile.gettempdir(), f"fuzz-{word}-{seed}"), "wb") as file:
                    file.write(input_)
                sys.exit(f"seed {seed}: {word} differs: {file.name}")
            verdict = word if word != "audit" else f"audit {answer[0][:16]!r}"
            seen[verdict, answer[2]] = seen.get((verdict, answer[2]), 0) + 1
    counts = (f"{count} {name} with status {status}" for (name, status), count in sorted(seen.items()))
    print("no difference:", *counts, sep="\n")


if __name__ == "__main__":
    main()
