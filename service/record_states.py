#!/usr/bin/env python3
"""Writes states.json anew: what three services report of a bank after some work, from which stub.py answers.

usage: record_states.py PROGRAM
"""
from __future__ import annotations

import json
import os
import random
import signal
import sys
import tempfile
import time
import urllib.error
import urllib.request
from typing import Any

sys.dont_write_bytecode = True
import cluster  # noqa: E402
from bank import requests  # noqa: E402

Json = dict[str, Any]
ACCOUNTS = ("ann", "bob", "eve", "fund.a", "fund.b")
SITES, COUNT = 3, 60


def ask(bank: cluster.Bank, site: int, event: Json) -> Json:
    """What a site answers, a refusal too."""
    request = urllib.request.Request(f"http://{bank.http[site]}/events", json.dumps(event).encode(),
                                     {"Content-Type": "application/json"})
    try:
        with urllib.request.urlopen(request, timeout=60) as reply:
            return dict(json.load(reply))
    except urllib.error.HTTPError as fault:
        return dict(json.load(fault))


def work(bank: cluster.Bank) -> None:
    """Some of each kind, in turn at the sites, so that one site makes not much more than another."""
    pick = random.Random(4)
    made: list[str] = []
    for turn in range(COUNT):
        account, other = pick.sample(ACCOUNTS, 2)
        events: list[Json] = [
            {"deposit": [account, pick.randrange(500, 90_000)]}, *requests({
                "account": account, "to": other, "cents": pick.randrange(100, 3_000), "rate": 125,
                "name": pick.choice(made) if made else "B0.1"})]
        reply = ask(bank, turn % SITES, pick.choice(events))
        made += [reply["name"]] if reply.get("kind") in ("deposit", "withdraw") else []


def states(bank: cluster.Bank) -> list[Json]:
    """What all sites report, once they have applied the same and nothing is on the way."""
    while True:
        found = [bank.get(site, "/state") for site in range(SITES)]
        alike = [{one["name"] for one in state["operations"]} for state in found]
        still = not any(sum(state["unsent"].values()) for state in found)
        if still and all(each == alike[0] for each in alike):
            return found
        time.sleep(0.5)


def main() -> None:
    if len(sys.argv) != 2:
        sys.exit(__doc__.partition("\n\n")[2])
    cluster.check_packages()
    signal.signal(signal.SIGTERM, signal.default_int_handler)  # what was started is ended
    with tempfile.TemporaryDirectory(prefix="bank-") as folder:
        broker = cluster.Cluster(os.path.join(folder, "broker"))
        bank = cluster.Bank(sys.argv[1], folder, broker, accounts=[[name, 100_000] for name in ACCOUNTS], sites=SITES)
        try:
            broker.start_all()
            for site in range(SITES):
                bank.start(site)
            for site in range(SITES):
                bank.wait(site)
            work(bank)
            found = states(bank)
        finally:
            bank.stop()
            broker.stop()
    with open(os.path.join(cluster.HERE, "states.json"), "w", encoding="utf-8") as file:
        file.write("[\n" + ",\n".join(json.dumps(state, sort_keys=True) for state in found) + "\n]\n")


if __name__ == "__main__":
    main()
