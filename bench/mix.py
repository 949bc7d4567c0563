"""The mixed script: requests and questions at all sites, with their messages on the way between them.

Follows the sites as it goes (what each applied and holds, balances, the token), so that every command
is accepted but for those that repeat. A command costs the same time here however long the script is.
"""
import functools
import random

from limits import LIMITS
from bank import COMMANDS, REQUESTS, TAKES

MOST = LIMITS["MOST_CENTS"]
FIRST = "deposit=6,withdraw=3,interest=1,cancel=1,balance=4,pass=1,transfer=1"
DEFAULT_MIX = FIRST + "".join(f",{verb}=1" for verb in REQUESTS if f"{verb}=" not in FIRST)
# Of the deliveries, one in this number is of a message that came before.
REPEATS = 50
# Of the withdrawals and transfers, one in this number is of more than there is.
DECLINED = 20


class Operation:
    """An operation with what it depends on: how many blue operations of each home, and how many red ones."""

    __slots__ = ("name", "home", "number", "red", "clock", "reds", "kind", "account", "amount", "target", "to")

    def __init__(self, site, kind, red, account, amount, target, to):
        self.home = site.number
        self.number = (site.reds if red else site.clock[self.home]) + 1
        self.name = f"R{self.number}" if red else f"B{self.home}.{self.number}"
        self.red = red
        self.clock = tuple(site.clock)
        self.reds = site.reds
        self.kind = kind
        self.account = account
        self.amount = amount
        self.target = target
        self.to = to


class Site:
    """What one site applied and holds, and the messages that haven't come to it."""

    def __init__(self, number, sites, starts):
        self.number = number
        self.balances = list(starts)
        self.clock = [0] * sites
        self.reds = 0
        self.cancelled = set()
        self.cancellable = []
        self.held = {}
        self.waiting = []
        self.has_token = number == 0
        self.epoch = 0
        self.needed = 0

    def may_make_red(self):
        return self.has_token and self.reds >= self.needed

    def has_applied(self, operation):
        return operation.number <= (self.reds if operation.red else self.clock[operation.home])

    def next_names(self):
        """The names that could be applied next: only the next of each home and the next red one can be ready."""
        yield f"R{self.reds + 1}"
        for home, count in enumerate(self.clock):
            yield f"B{home}.{count + 1}"

    def ready(self):
        """The held operations whose past is applied here."""
        held = [self.held[name] for name in self.next_names() if name in self.held]
        return [one for one in held if self.reds >= one.reds and all(map(int.__ge__, self.clock, one.clock))]

    def changes(self, operation):
        """The accounts on which the operation would move something here, and what."""
        if operation.kind == "cancel":
            is_gone = operation.target.name in self.cancelled
            return [] if is_gone else [(account, -moved) for account, moved in self.changes(operation.target)]
        moved = COMMANDS[operation.kind]["moves"] * operation.amount
        return [(operation.account, moved)] + ([] if operation.to is None else [(operation.to, -moved)])

    def apply(self, operation):
        for account, moved in self.changes(operation):
            self.balances[account] += moved
        if operation.kind == "cancel":
            self.cancelled.add(operation.target.name)
        elif operation.kind != "declined":
            self.cancellable.append(operation)
        if operation.red:
            self.reds += 1
        else:
            self.clock[operation.home] += 1


class Mix:
    """A run of the sites, one command at a time."""

    def __init__(self, pick, sites, accounts, weights, backlog):
        self.pick = pick
        self.names = [f"a{place}" for place in range(accounts)]
        self.starts = [pick(10_000) for _ in self.names]
        self.sites = [Site(number, sites, self.starts) for number in range(sites)]
        self.sent = []
        self.requests = [functools.partial(way_of(verb), self, verb) for verb, weight in weights.items()
                         for _ in range(weight)]
        self.backlog = backlog
        # How many deliveries and applications are still to come for what was made.
        self.owed = 0

    def one_of(self, items):
        return items[self.pick(len(items))]

    def command(self, left):
        """The next command, where this number is left. Where much is on its way, it moves on first; at the end, all."""
        if self.owed >= left:
            return self.moves_on()
        site = self.one_of(self.sites)
        ready = site.ready()
        if ready and self.pick(10) < 7:
            return self.applies(site, self.one_of(ready))
        if site.waiting and self.pick(self.backlog) < max(0.4 * self.backlog, len(site.waiting)):
            return self.delivers(site)
        return self.one_of(self.requests)(site) or self.make_balance("balance", site)

    # ---- messages

    def moves_on(self):
        """A command that brings a site further: there is one while any delivery or application is still to come."""
        for site in self.sites:
            ready = site.ready()
            if ready:
                return self.applies(site, ready[0])
        behind = next((site for site in self.sites if site.waiting), None)
        return self.delivers(behind) if behind else self.make_balance("balance", self.sites[0])

    def send(self, message, sites, owed):
        self.sent.append(message)
        self.owed += owed
        for site in sites:
            site.waiting.append(len(self.sent))

    def delivers(self, site):
        place = self.pick(len(site.waiting))
        site.waiting[place], site.waiting[-1] = site.waiting[-1], site.waiting[place]
        number = site.waiting.pop()
        message = self.sent[number - 1]
        self.owed -= 1
        if not isinstance(message, Operation):
            if message[0] > site.epoch:
                site.epoch, site.needed = message
                site.has_token = True
        elif not site.has_applied(message):
            site.held[message.name] = message
        if self.pick(REPEATS) == 0:
            site.waiting.append(number)
            self.owed += 1
        return f'{{"deliver":{number},"site":{site.number}}}'

    def applies(self, site, operation):
        site.apply(site.held.pop(operation.name))
        self.owed -= 1
        return f'{{"apply":"{operation.name}","site":{site.number}}}'

    # ---- requests

    def make(self, site, kind, red, account, amount, target=None, to=None):
        """The operation that a request makes, applied here and sent to all others."""
        operation = Operation(site, kind, red, account, amount, target, to)
        site.apply(operation)
        others = [other for other in self.sites if other is not site]
        self.send(operation, others, 2 * len(others))

    def make_adding(self, verb, site):
        account, amount = self.pick(len(self.names)), 1 + self.pick(1000)
        self.make(site, verb, False, account, amount)
        return f'{{"{verb}":["{self.names[account]}",{amount}],"site":{site.number}}}'

    def for_red(self, site):
        """The site that may make red operations, if one may now, else this one."""
        return next((other for other in self.sites if other.may_make_red()), site)

    def taken(self, site, account):
        """An amount to be taken from the account, and whether it is covered, or nothing where none may be taken."""
        balance = site.balances[account]
        if self.pick(DECLINED) == 0 and balance < MOST:
            return balance + 1, False
        if site.may_make_red() and balance > 0:
            return 1 + self.pick(min(balance, 500)), True
        return None

    def make_taking(self, verb, site):
        site = self.for_red(site)
        account = self.pick(len(self.names))
        taken = self.taken(site, account)
        if taken is None:
            return None
        amount, covered = taken
        self.make(site, verb if covered else "declined", covered, account, amount)
        return f'{{"{verb}":["{self.names[account]}",{amount}],"site":{site.number}}}'

    def make_moving(self, verb, site):
        site = self.for_red(site)
        if len(self.names) < 2:
            return None
        account = self.pick(len(self.names))
        to = (account + 1 + self.pick(len(self.names) - 1)) % len(self.names)
        taken = self.taken(site, account)
        if taken is None:
            return None
        amount, covered = taken
        self.make(site, verb if covered else "declined", covered, account, amount, to=to if covered else None)
        return f'{{"site":{site.number},"{verb}":["{self.names[account]}","{self.names[to]}",{amount}]}}'

    def make_share(self, verb, site):
        account, rate = self.pick(len(self.names)), self.pick(20)
        amount = site.balances[account] * rate // LIMITS["BASIS_POINTS_OF_ALL"]
        if amount > MOST:
            return None
        self.make(site, verb, False, account, amount)
        return f'{{"{verb}":["{self.names[account]}",{rate}],"site":{site.number}}}'

    def make_cancel(self, verb, site):
        site = self.for_red(site)
        if not site.cancellable:
            return None
        target = self.one_of(site.cancellable)
        red = COMMANDS[target.kind]["moves"] > 0 or target.to is not None
        if target.name in site.cancelled:
            return None
        covered = all(site.balances[account] >= moved for account, moved in site.changes(target))
        if red and not (site.may_make_red() and covered):
            return None
        self.make(site, verb, red, target.account, target.amount, target)
        return f'{{"{verb}":"{target.name}","site":{site.number}}}'

    def make_pass(self, verb, site):
        """Sends the token on: a pair of its epoch and of the red operations that its next site needs first."""
        site = self.for_red(site)
        if not site.has_token:
            return None
        to = self.one_of([other for other in self.sites if other is not site])
        site.epoch, site.has_token = site.epoch + 1, False
        self.send((site.epoch, max(site.needed, site.reds)), [to], 1)
        return f'{{"{verb}":{to.number},"site":{site.number}}}'

    def make_balance(self, verb, site):
        return f'{{"{verb}":"{self.one_of(self.names)}","site":{site.number}}}'


def way_of(verb):
    """How a command is made: a request of cents or of a rate by its fields and the sign of what it moves; None of some
    others, and of what is no command."""
    takes = TAKES.get(verb, [])
    if "to" in takes:
        return Mix.make_moving
    if "rate" in takes:
        return Mix.make_share
    if "cents" in takes:
        return Mix.make_adding if COMMANDS[verb]["moves"] > 0 else Mix.make_taking
    return getattr(Mix, f"make_{verb}", None) if takes else None


def weights_of(text):
    """The weights that a text such as `deposit=6,balance=4` gives."""
    pairs = [part.split("=") for part in text.split(",")]
    if any(len(pair) != 2 or not way_of(pair[0]) or not pair[1].isdigit() for pair in pairs):
        raise ValueError(f"weights are wanted, as {DEFAULT_MIX}")
    return {verb: int(weight) for verb, weight in pairs}


def opened(seed, sites=3, accounts=10, weights=DEFAULT_MIX, backlog=16):
    """A run before its first command, and the accounts with their starts."""
    uniform = random.Random(seed).random
    run = Mix(lambda below: int(uniform() * below), sites, accounts, weights_of(weights), backlog)
    return run, list(zip(run.names, run.starts))


def mix(seed, commands, **of_mix):
    """The accounts with their starts, and then the commands."""
    run, accounts = opened(seed, **of_mix)
    yield accounts
    for done in range(commands):
        yield run.command(commands - done)
