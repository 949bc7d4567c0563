#!/usr/bin/env python3
"""What a run of one teller writes, by docs/FORMAT.md alone: no two of its runs differ.

usage: one_teller.py SITES SEED

The teller is at site 0. Nobody sends to that site, so its history is the teller's calls, and each other site receives
what site 0 sends in the order of sending, and applies each operation at once.
"""
import json
import sys

CALLS = 100
MULTIPLIER, INCREMENT = 6364136223846793005, 1442695040888963407


def line(value):
    return json.dumps(value, sort_keys=True, separators=(",", ":")) + "\n"


def bank(sites):
    """The line of the configuration."""
    limits = {"blue": 10**6, "red": 10**6, "inbox": 4096, "history": 10**8, "epoch": 4 * 10**9}
    accounts = [[f"a{n}", 1000] for n in range(4)]
    return line({"accounts": accounts, "sites": sites, "version": 1 if sites <= 8 else 2, **limits})


class Teller:
    """Site 0 with its one teller: the entries of its history, and the messages that it sent, in their order."""

    def __init__(self, sites, seed):
        self.sites, self.x, self.last = sites, seed, None
        self.balances = dict.fromkeys(["a0", "a1", "a2", "a3"], 1000)
        self.made = {}
        self.blue = self.red = 0
        self.has_token = True
        self.history, self.sent = [], []
        for _ in range(CALLS):
            event = self.next_call()
            self.history.append((event, self.answer(event)))

    def next_call(self):
        self.x = (self.x * MULTIPLIER + INCREMENT) % 2**64
        r = self.x // 2**33
        q, account = r // 8, f"a{r // 8192 % 4}"
        if r % 8 <= 3:
            return {"deposit": [account, 1 + q % 1000]}
        if r % 8 == 4:
            return {"withdraw": [account, 1 + q % 500]}
        if r % 8 == 5:
            return {"interest": [account, q % 200]}
        if r % 8 == 7:
            return {"pass": 1 % self.sites}
        return {"cancel": self.last} if self.last else {"deposit": [account, 1]}

    def answer(self, event):
        """The reply. What was made or passed is sent."""
        (word, asked), = event.items()
        if word == "pass":
            return self.passing(asked)
        if word == "cancel":
            return self.cancel(asked)
        account, number = asked
        if word == "interest":
            return self.make(word, account, self.balances[account] * number // 10000, +1)
        if word == "deposit":
            return self.make(word, account, number, +1)
        if self.balances[account] < number:
            return self.make("declined", account, number, 0)
        return self.make("withdraw", account, number, -1, red=True)

    def passing(self, to):
        if not self.has_token:
            return {"refused": 8}
        self.has_token = False
        self.sent.append({"token": [1, to, self.red]})
        return {"passed": 1}

    def cancel(self, target):
        kind, account, amount = self.made[target]
        if kind in ("declined", "cancel"):
            return {"refused": 5}
        if kind == "withdraw":
            return self.make("cancel", account, amount, +1, target=target)
        # Nothing was made since, so the money is there, and nothing cancelled it before.
        return self.make("cancel", account, amount, -1, red=True, target=target)

    def make(self, kind, account, amount, sign, red=False, **more):
        """Makes an operation, of which the balance has the amount more or less."""
        if red and not self.has_token:
            return {"refused": 8}
        name = f"R{self.red + 1}" if red else f"B0.{self.blue + 1}"
        shadow = {"account": account, "amount": amount, "deps": self.clock(), "home": 0, "kind": kind, "name": name}
        self.sent.append({"shadow": {**shadow, **more}})
        self.balances[account] += sign * amount
        self.made[name] = (kind, account, amount)
        self.blue, self.red, self.last = self.blue + (not red), self.red + red, name
        return {"kind": kind, "name": name}

    def clock(self):
        if self.sites <= 8:
            return [[self.blue, 0, 0, 0, 0, 0, 0, 0], self.red]
        return [[[0, self.blue]] if self.blue else [], self.red]


def received(sent, site, lost):
    """The entries of another site, by whose link the message of this index was lost, if any was: what is made behind a
    lost operation isn't ready there."""
    ready = True
    for index, message in enumerate(sent):
        if index == lost:
            ready = ready and "token" in message
        elif "shadow" in message:
            name = message["shadow"]["name"]
            yield message, {"held": name}
            if ready:
                yield {"apply": name}, {"applied": name}
        elif message["token"][1] == site:
            yield message, {"taken": message["token"][0]}


def text(sites, seed, lost=None):
    """What the run writes. Where a message is lost, by its index, it is so at every site."""
    teller = Teller(sites, seed)
    histories = [teller.history] + [received(teller.sent, site, lost) for site in range(1, sites)]
    entries = [(site, event, reply) for site, entries in enumerate(histories) for event, reply in entries]
    return bank(sites) + "".join(line({"event": event, "reply": reply, "site": site}) for site, event, reply in entries)


if __name__ == "__main__":
    if len(sys.argv) != 3:
        sys.exit(__doc__)
    sys.stdout.write(text(int(sys.argv[1]), int(sys.argv[2])))
