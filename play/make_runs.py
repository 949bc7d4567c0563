#!/usr/bin/env python3
"""Makes the random scripts of play/runs, which check.py runs.

usage: make_runs.py PROGRAM

In each, operations are made, delivered and applied in any order, some of them twice or never. They are always the same.
"""
from __future__ import annotations

import json
import os
import random
import sys
from typing import Any

import child
import bank

RUNS = os.path.join(child.HERE, "runs")
SEEDS = range(6)
SITES, OPERATIONS = 5, 25
ACCOUNTS = ["ann", "bob", "cy"]
MOVES = {verb: bank.COMMANDS[verb]["moves"] for verb in bank.REQUESTS}
# deposits twice as often as others; first what adds to an account, then what takes from it, last what does neither
VERBS = ["deposit", *sorted(bank.REQUESTS, key=lambda verb: (MOVES[verb] == 0, -MOVES[verb]))]


class Run:
    """A script that grows, with what the program answered so far."""

    def __init__(self, program: bank.Program, seed: int) -> None:
        self.rng = random.Random(seed)
        self.config: dict[str, Any] = {"accounts": [[name, 500] for name in ACCOUNTS], "sites": SITES,
                                       "version": 1 + seed % 2}
        if seed % 3 == 0:
            self.config["inbox"] = 3
        self.child, self.lines, self.names, self.sent = child.Child(program), [bank.compact(self.config)], [], 0

    def request(self) -> dict[str, Any]:
        (who, other), rng = self.rng.sample(ACCOUNTS, 2), self.rng

        def asked(verb: str) -> Any:
            most = bank.COMMANDS[verb].get("most", 0)
            draws = {"account": lambda: who, "to": lambda: other, "cents": lambda: rng.randint(1, most),
                     "rate": lambda: rng.randint(0, most),
                     "name": lambda: rng.choice(self.names) if self.names else "B0.1"}
            return bank.command(verb, {field: draws[field]() for field in bank.TAKES[verb]})
        return rng.choice([asked(verb) for verb in VERBS])

    def event(self) -> dict[str, Any] | None:
        """The next event; none if there is nothing yet that it could be about."""
        rng, kind = self.rng, self.rng.random()
        if kind < .2:
            return self.request()
        if kind < .25:
            return {"batch": [self.request() for _ in range(rng.randint(0, 4))]}
        if kind < .32:
            return {"pass": rng.randrange(SITES)}
        if kind < .7:
            return {"deliver": rng.randint(max(1, self.sent - 8), self.sent)} if self.sent else None
        return {"apply": rng.choice(self.names[-10:])} if self.names else None

    def grow(self) -> None:
        event = self.event()
        if event is None:
            return
        self.lines.append(bank.compact(event | {"site": self.rng.randrange(SITES)}))
        replies, _ = self.child.run([line.encode() for line in self.lines])
        reply = json.loads(replies[-1])
        new = [reply["name"]] if "name" in reply else reply.get("names", [])
        self.names.extend(new)
        self.sent += len(new) + ("passed" in reply)

    def whole(self) -> str:
        while len(self.names) < OPERATIONS and len(self.lines) < 12 * OPERATIONS:
            self.grow()
        self.child.close()
        return "\n".join([*self.lines, ""])


def main() -> int:
    if len(sys.argv) != 2 or sys.argv[1].startswith("-"):
        print(__doc__)
        return 0 if sys.argv[1:] in (["-h"], ["--help"]) else 2
    program = bank.program(sys.argv[1])
    for seed in SEEDS:
        with open(os.path.join(RUNS, f"random_{seed}.jsonl"), "w", encoding="utf-8") as file:
            file.write(Run(program, seed).whole())
    return 0


if __name__ == "__main__":
    bank.stops_in_words("make_runs", main)
