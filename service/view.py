"""What a site has applied, what it holds, and where the token is: a picture in memory, for the console, for metrics,
and for those who wait for the token.

It is what the program answered. As a child starts, the last operations come from the journal's end, and from the
messages that the child sends again.
"""
import asyncio
import time
from collections import Counter
from collections.abc import Awaitable, Callable
from typing import Any

Json = dict[str, Any]
BESIDE = {"bank", "id"}  # keys that an event may have beside its own
KEPT = 500  # operations that are shown; and entries that are looked at as a child starts
HELD = 50  # held operations that are shown


def clock_of(applied: list[Any]) -> Counter[str]:
    """How many operations have names that begin with B0., B1. and so on, and R, by a clock in either version."""
    blue = applied[0] if applied[0] and isinstance(applied[0][0], list) else enumerate(applied[0])
    return Counter({f"B{site}.": count for site, count in blue} | {"R": applied[1]})


def shadows(messages: list[Json]) -> dict[str, Json]:
    """The operations among some messages, by their names."""
    return {message["shadow"]["name"]: message["shadow"] for message in messages if "shadow" in message}


class View:
    def __init__(self, config: Json, me: int) -> None:
        self.me, self.token, self.since = me, {"epoch": 0, "here": False, "to": None}, 0.0  # since when it is here
        self.moved: asyncio.Future[None] = asyncio.Future()  # done, and made anew, as a request may find the token here
        self.balances: dict[str, int] = dict(config["accounts"])
        self.stale = set(self.balances)  # accounts whose balances aren't those that the site has
        self.operations: dict[str, Json] = {}  # the last that were applied, in order; an empty one isn't known
        self.held: dict[str, Json] = {}
        self.clock: Counter[str] = Counter()
        self.events, self.refused = Counter[str](), Counter[int]()

    def begin(self, about: Json, entries: list[Json], sent: list[Json]) -> None:
        """Where a site is as its child starts, by its last entries: its own operations are among those that it sent."""
        own = shadows(sent)
        self.operations, self.held = {}, {}
        for entry in entries:
            reply = entry["reply"]
            names = [reply["name"]] if "kind" in reply else reply.get("names", [])
            self.takes(entry["event"], reply, {name: own.get(name, {}) for name in names}, [])
        self.token |= {"epoch": about["epoch"], "here": about["token"]}
        self.clock, self.stale = clock_of(about["applied"]), set(self.balances)

    def record(self, event: Json, answer: Json) -> None:
        """What the site answered to an event, each once, in order."""
        self.events[next(key for key in event if key not in BESIDE)] += 1
        if "refused" in answer["reply"]:
            self.refused[answer["reply"]["refused"]] += 1
        if "again" not in answer:
            self.takes(event, answer["reply"], shadows(answer["sends"]), answer["then"])

    def takes(self, event: Json, reply: Json, made: dict[str, Json], then: list[Json]) -> None:
        """What an event changed at the site, which made these operations, and applied others then."""
        if "held" in reply:
            self.held[reply["held"]] = event["shadow"]
        elif "taken" in reply:
            self.token, self.since = {"epoch": reply["taken"], "here": True, "to": self.me}, time.monotonic()
        elif "passed" in reply:
            self.token = {"epoch": reply["passed"], "here": False, "to": event["pass"]}
        made |= {one["applied"]: self.held.pop(one["applied"], {}) for one in (reply, *then) if "applied" in one}
        for name, shadow in made.items():
            self.clock[name[:name.find(".") + 1] or "R"] += 1
            self.operations[name] = shadow
            moved = self.operations.get(shadow.get("target", name))  # itself, or what it cancels
            self.stale.update({moved["account"], moved.get("to", moved["account"])} if moved else self.balances)
            if len(self.operations) > KEPT:
                del self.operations[next(iter(self.operations))]
        if self.token["here"] and ("taken" in reply or then):
            self.moved.set_result(None)
            self.moved = asyncio.Future()

    async def refresh(self, ask: Callable[[Json], Awaitable[Json]]) -> None:
        """Asks the site for the balances that changed."""
        asked, self.stale = {name: ask({"balance": name}) for name in self.stale}, set()
        for name, answer in asked.items():
            self.balances[name] = (await answer)["reply"]["balance"]

    def shown(self) -> Json:
        """What the console is shown. An operation's place is how many the site had applied with it."""
        first = self.clock.total() - len(self.operations) + 1
        operations = [one | {"place": at} for at, one in enumerate(self.operations.values(), first) if one]
        held = [one | {"waits": [f"{home}{self.clock[home] + 1}" for home in clock_of(one["deps"]) - self.clock]}
                for one in list(self.held.values())[:HELD]]
        blue = [[int(home[1:-1]), count] for home, count in sorted(self.clock.items()) if home != "R"]
        return {"applied": [blue, self.clock["R"]], "balances": self.balances, "held": held, "holds": len(self.held),
                "operations": operations, "site": self.me, "token": self.token}
