"""The histories of a mixed run: what each site recorded, as `rbbank audit` reads it.

Follows the mix as it goes and keeps beside it what each site knows, for the replies of deliveries.
"""
import json

import mix
from limits import LIMITS


def written(value):
    """A JSON value as the program writes it."""
    return json.dumps(value, separators=(",", ":"), sort_keys=True)


def counts(clock, version):
    """The blue operations of a clock: in version 1 for each of as many sites as there may be, in version 2 those above
    0."""
    if version == 1:
        return [*clock, *[0] * (LIMITS["MOST_SITES_OF_VERSION_1"] - len(clock))]
    return [[site, count] for site, count in enumerate(clock) if count]


def shadow(run, operation, version):
    """An operation as it travels, in a version of the lines."""
    told = {
        "account": run.names[operation.account],
        "amount": operation.amount,
        "deps": [counts(operation.clock, version), operation.reds],
        "home": operation.home,
        "kind": operation.kind,
        "name": operation.name,
    }
    target = {} if operation.target is None else {"target": operation.target.name}
    return told | target | ({} if operation.to is None else {"to": run.names[operation.to]})


class Known:
    """What each site has heard of, operations by name and its greatest epoch; and the version of the lines."""

    def __init__(self, sites, version):
        self.version = version
        self.names = [set() for _ in range(sites)]
        self.epochs = [0] * sites

    def hears(self, site, name):
        """Whether the operation is new to the site."""
        new = name not in self.names[site]
        self.names[site].add(name)
        return new

    def sees(self, site, epoch):
        """Whether the epoch is above all that the site has seen."""
        new = epoch > self.epochs[site]
        self.epochs[site] = max(epoch, self.epochs[site])
        return new


def delivered(run, known, site, number, to_token):
    """The event and the reply of a delivery. A token message has its addressee beside it."""
    message = run.sent[number - 1]
    if isinstance(message, mix.Operation):
        reply = "held" if known.hears(site, message.name) else "already"
        return {"shadow": shadow(run, message, known.version)}, {reply: message.name}
    epoch, needed = message
    return {"token": [epoch, to_token[number], needed]}, {"taken" if known.sees(site, epoch) else "stale": epoch}


def recorded(run, known, to_token, event, site):
    """The event and its reply as the site records them, after the run went on by the command."""
    verb, asked = next(iter(event.items()))
    if verb == "deliver":
        return delivered(run, known, site, asked, to_token)
    if verb == "apply":
        return event, {"applied": asked}
    if verb == "balance":
        return event, {"balance": run.sites[site].balances[run.names.index(asked)]}
    if verb == "pass":
        to_token[len(run.sent)] = asked
        known.sees(site, run.sites[site].epoch)
        return event, {"passed": run.sites[site].epoch}
    made = run.sent[-1]
    known.hears(site, made.name)
    return event, {"kind": made.kind, "name": made.name}


def histories(seed, entries, version=1, **of_mix):
    """The accounts with their starts, and then this number of lines of histories, in a version of the lines."""
    run, picked = mix.opened(seed, **of_mix)
    known, to_token = Known(len(run.sites), version), {}
    yield picked
    for done in range(entries):
        event = json.loads(run.command(entries - done))
        site = event.pop("site")
        event, reply = recorded(run, known, to_token, event, site)
        yield written({"event": event, "reply": reply, "site": site})
