#!/usr/bin/env python3
"""Checks the parts of a service one by one, over the program.

usage: check.py PROGRAM             the child, its end at any moment, the token, closing: wants no package
       check.py PROGRAM --http      HTTP as well, which wants aiohttp and aio-pika, but no broker
       check.py PROGRAM --broker    and the queues of one node of the broker
       check.py PROGRAM CHECK..     these checks alone, by their names below

It prints what is otherwise than it has to be, and ends in status 1 then; in 77 if a package is missing.
"""
from __future__ import annotations

import asyncio
import contextlib
import http.client
import json
import logging
import os
import re
import signal
import socket
import subprocess
import sys
import tempfile
import threading
import time
import types
import unittest.mock
from collections.abc import AsyncIterator, Awaitable, Callable
from typing import Any

sys.dont_write_bytecode = True
HERE = os.path.dirname(os.path.abspath(__file__))
sys.path[:0] = [HERE, os.path.join(HERE, "..", "examples", "tools")]
import bank
import client
import cluster
import site_child
from client import Client, Denied
from site_child import Desk, Fault, Json, Period, Site, last_period, requests_of
from view import BESIDE, KEPT, View

PROGRAM, NAME = os.path.abspath(sys.argv[1] if sys.argv[1:] else ""), "b.0001"
CONFIG = {"accounts": [["ann", 1000], ["bob", 0]], "sites": 2, "version": 1}
PATIENCE = float(os.environ.get("PATIENCE", 600))  # seconds for anything
PROBLEMS: list[str] = []
SERVICES: list[subprocess.Popen[bytes]] = []
OBSERVED: list[tuple[str, str, Any, http.client.HTTPResponse, str]] = []  # what was asked by HTTP, and answered


def same(what: str, found: Any, wanted: Any) -> None:
    if found != wanted:
        PROBLEMS.append(f"{what}\n  found  {str(found)[:600]}\n  wanted {str(wanted)[:600]}")


class Running:
    """A site with its view, what it handed on, and the task that runs it."""

    def __init__(self, folder: str, me: int = 0, confirmed: int = 0) -> None:
        self.sent: list[Json] = []
        period = Period(folder, "b", 1)
        period.keep("confirmed", confirmed)
        self.site = Site(PROGRAM, period, me, CONFIG)
        self.view, self.site.send = self.site.view, lambda entry, messages: self.sent.extend(map(json.loads, messages))
        self.task = asyncio.create_task(self.site.run())

    async def ask(self, *events: Json) -> list[Json]:
        return list(await asyncio.wait_for(asyncio.gather(*map(self.site.ask, events)), PATIENCE))

    async def replies(self, *events: Json) -> list[Json]:
        return [answer.get("reply", answer) for answer in await self.ask(*events)]

    def names(self) -> list[str]:
        return [message["shadow"]["name"] for message in self.sent if "shadow" in message]

    async def end(self) -> None:
        await self.site.stop(PATIENCE / 10)
        self.task.cancel()
        await asyncio.wait({self.task}, timeout=PATIENCE)


@contextlib.asynccontextmanager
async def site(folder: str, me: int = 0, confirmed: int = 0, new: bool = True) -> AsyncIterator[Running]:
    """A site on its journal, which is made if there is none."""
    if new:
        open(os.path.join(folder, f"0001.{me}.journal"), "ab").close()
    running = Running(folder, me, confirmed)
    try:
        yield running
    finally:
        await running.end()


def entries(folder: str, me: int = 0) -> list[Json]:
    with open(os.path.join(folder, f"0001.{me}.journal")) as file:
        return [json.loads(line) for line in file if line.startswith("{")][1:]


# ---- the child


async def lines(folder: str) -> None:
    """Ids, other banks, lines that are no events; and that none of them ends the site."""
    deposit = {"deposit": ["ann", 500], "id": "a-1"}
    async with site(folder) as one:
        first, again, other = await one.ask(deposit, deposit, deposit | {"deposit": ["ann", 501]})
        same("a request by its id", first["reply"], {"kind": "deposit", "name": "B0.1"})
        same("asked again", (again.get("again"), again["reply"]), (True, first["reply"]))
        same("another request of the id", other["reply"], {"refused": 25})
        shadow = first["sends"][0] | {"shadow": first["sends"][0]["shadow"] | {"home": 1, "name": "B1.1"}}
        same("messages of another bank, of none, and of this one",
             await one.replies(shadow | {"bank": "b.0002"}, {"shadow": shadow["shadow"]}, shadow),
             [{"refused": 26}, {"refused": 26}, {"held": "B1.1"}])
        answers = await one.ask({"deposit": "ann"}, {"x": 1}, {"deposit": ["a" * 2**20, 1]})
        same("lines that are no events, with reasons", ["why" in answer for answer in answers], [True, True, False])
        same("... by their numbers", [(answer["bad"], answer["line"]) for answer in answers],
             [("line", 11), ("line", 12), ("long", 13)])
        same("and after them", await one.replies({"balance": "ann"}), [{"balance": 2000}])
        same("messages that were handed on", one.names(), ["B0.1"])
        about = (await one.replies({"about": "site"}))[0]["about"]
        same("entries", one.site.entries, about["entries"])
    same("entries in the journal", len(entries(folder)), 3)


async def kills(folder: str) -> None:
    """A child is killed over and over: each request is made once, is answered, and is handed on in order."""
    async with site(folder) as one:
        gate = asyncio.Semaphore(20)  # so that there are requests under way, and others left, at each kill

        async def reply(n: int) -> Json:
            async with gate:
                return (await one.replies({"deposit": ["ann", 1 + n]} | ({"id": f"k-{n}"} if n % 2 else {})))[0]
        answers, ends, after = asyncio.gather(*map(reply, range(1000))), 0, 100
        while not answers.done():
            await asyncio.sleep(0.001)
            if one.site.up and one.site.process and one.site.entries > after:
                one.site.process.kill()
                ends, after = ends + 1, after + 200
                await until("the child ends", lambda: not one.site.up)
        replies = await answers
        names = [f"B0.{n}" for n in range(1, 1001)]
        same("replies", sorted(reply.get("name", "") for reply in replies), sorted(names))
        about = (await one.replies({"about": "site"}))[0]["about"]
        same(f"entries after {ends} kills", (about["entries"], one.site.entries), (1000, 1000))
        same("handed on", list(dict.fromkeys(one.names())), names)
        if ends < 2:
            PROBLEMS.append(f"the child was killed {ends} times alone")
        await one.view.refresh(one.site.ask)
        same("balance", one.view.balances["ann"], 1000 + 1000 * 1001 // 2)
        last = one.view.shown()["operations"]
        same("the last operations", [(each["name"], each["place"]) for each in last],
             list(zip(names[-KEPT:], range(1001 - KEPT, 1001))))
    ids = [entry["id"] for entry in entries(folder)]
    same("ids in the journal, each once", len(set(ids)), 1000)


async def unheard(folder: str) -> None:
    """A child's answers are lost with it: what it made is made once, answered by the next one, and handed on."""
    async with site(folder) as one:
        await one.ask({"balance": "ann"})
        lost: list[Json] = []
        events: list[Json] = [{"deposit": ["ann", 5], "id": "a"}, {"deposit": ["ann", 7]}]
        heard = one.site.heard
        setattr(one.site, "heard", lost.append)
        asked = asyncio.gather(*map(one.site.ask, events))
        await until("both are made", lambda: len(lost) == 2)
        setattr(one.site, "heard", heard)
        assert one.site.process
        one.site.process.kill()
        answers, names = await asyncio.wait_for(asked, PATIENCE), ["B0.1", "B0.2"]
        same("answered", [(answer.get("again"), answer["reply"]["name"]) for answer in answers],
             [(True, name) for name in names])
        same("handed on", one.names(), names)
        same("balance", await one.replies({"balance": "ann"}), [{"balance": 1012}])


async def restarts(folder: str) -> None:
    """A new service: what wasn't confirmed is handed on, and the picture is as before."""
    events: list[Json] = [{"deposit": ["ann", 5]}, {"withdraw": ["ann", 3]}, {"cancel": "B0.1"}, {"pass": 1}]
    async with site(folder) as one:
        await one.ask(*events)
        sent = one.sent
        late = {"account": "bob", "amount": 7, "deps": [[0, 1, 0, 0, 0, 0, 0, 0], 0], "home": 1, "kind": "deposit",
                "name": "B1.2"}
        await one.ask({"bank": NAME, "shadow": late})
        before = one.view.shown()
    for confirmed, wanted in ((0, sent), (2, sent[2:]), (5, [])):
        async with site(folder, confirmed=confirmed) as one:
            await one.ask({"balance": "ann"})
            same(f"sent again if {confirmed} entries are confirmed", one.sent, wanted)
            same("the picture", one.view.shown() | {"balances": {}}, before | {"balances": {}})
            same("what is held waits for", before["held"][0]["waits"], ["B1.1"])


async def faults(folder: str) -> None:
    """Journals that no site may start on."""
    async def fault(what: str, text: str, confirmed: int = 0) -> None:
        running = Running(folder, confirmed=confirmed)
        try:
            await asyncio.wait_for(asyncio.shield(running.task), PATIENCE / 10)
        except Fault as why:
            assert running.site.process
            await running.site.process.communicate(b"")  # (as at the service's end)
            return same(what, text in str(why), True)
        except asyncio.TimeoutError:
            PROBLEMS.append(f"{what}: no fault")
            with contextlib.suppress(Fault):
                await running.end()

    await fault("no journal", "no journal")
    async with site(folder) as one:
        await one.ask({"deposit": ["ann", 5]})
    await fault("an older copy", "an older copy", confirmed=2)
    with open(os.path.join(folder, "0001.0.journal"), "r+b") as file:
        file.write(b'{"accounts":[["zed"')
    await fault("another bank's journal", "another bank")


# ---- the token, and closing


def message(said: Json) -> types.SimpleNamespace:
    """A message of the broker."""
    return types.SimpleNamespace(body=json.dumps(said).encode())


async def token(folder: str) -> None:
    """The token goes round the sites that want it, after a moment, and clients who wait ask again as it comes."""
    replies: list[tuple[Json, bool]] = [
        ({"refused": 8}, True), ({"refused": 9}, True), ({"cause": 8, "refused": 13}, True), ({"refused": 10}, False),
        ({"cause": 10, "refused": 13}, False), ({"cause": "declined", "refused": 13}, False), ({"balance": 8}, False)]
    for reply, lacks in replies:
        same(f"for want of the token: {reply}", site_child.lacks(reply), lacks)
    async with site(folder) as one:
        site_child.HOLD, site_child.HEARD = 5.0, PATIENCE
        one.site.config = CONFIG | {"sites": 4}
        here = Desk(one.site)
        await one.ask({"balance": "ann"})
        task = asyncio.create_task(here.run())
        said = {"applied": {}, "wants": True}
        for other in (3, 1):
            await here.hears(message(said | {"site": other}))
        await until("the token is passed", lambda: not one.view.token["here"])
        same("to the next that wants it", (one.view.token["to"], set(here.wanted)), (1, {3}))
        made = here.ask(lambda: one.site.ask({"withdraw": ["ann", 1], "id": "w"}), PATIENCE)
        await until("a client waits, and says so", lambda: here.waiters == 1 and here.says()["wants"])
        await one.ask({"bank": NAME, "token": [2, 0, 0]})
        same("it asks again as the token comes", (await made)["reply"], {"kind": "withdraw", "name": "R1"})
        await here.hears(message(said | {"site": 1}))
        await asyncio.sleep(0.5)
        same("a site keeps it for a moment", one.view.token["here"], True)
        await until("it is passed on", lambda: not one.view.token["here"])
        short = await here.ask(lambda: one.site.ask({"withdraw": ["ann", 1]}), 0.2)
        same("a wait has an end", short["reply"], {"refused": 8})
        await here.hears(message({"applied": {"B0.": 1, "B1.": 5, "R": 3}, "site": 1, "wants": False}))
        same("behind another site", here.behind(), {1: 1 + 5 + 2, 3: 0})
        await one.ask({"deposit": ["ann", 1]})
        same("behind it once more is applied here", here.behind(), {1: 5 + 2, 3: 0})
        task.cancel()


async def until(what: str, fact: Callable[[], bool]) -> None:
    end = time.monotonic() + PATIENCE
    while not fact():
        if time.monotonic() > end:
            PROBLEMS.append(f"not in {PATIENCE} s: {what}")
            return
        await asyncio.sleep(0.01)


async def closes(folder: str) -> None:
    """The steps of a closing at a site, each as often as it is asked for."""
    period = Period(folder, "b", 1)
    period.begin(0, CONFIG)
    same("its first line is the one that it began with", period.begin(0, CONFIG | {"sites": 3}), CONFIG)
    async with site(folder) as one:
        here, line = Desk(one.site), CONFIG | {"accounts": [["ann", 1005], ["bob", 0]]}
        await one.ask({"deposit": ["ann", 5], "id": "last"})

        async def step(step: str, name: str = NAME, **more: Any) -> Any:
            asked = {"bank": name, "line": line, "step": step, **more}
            status, said = await asyncio.wait_for(here.step(asked), PATIENCE)
            return said if status == 200 else said["error"]
        same("no seal before clients are stopped", await step("seal"), "no seal now")
        same("nor of another period", await step("stop", "b.0003"), f"this is {NAME}")
        applied = [[1] + [0] * 7, 0]
        for _ in range(2):
            same("stop", (await step("stop"), here.closing), ({"is": "stopped", "applied": applied}, True))
        same("a start goes on so", Desk(one.site).closing, True)
        one.site.stopping = True
        same("no stop as the service ends", await step("stop"), "no stop now")
        one.site.stopping = False
        for _ in range(2):
            same("clients are served again", (await step("open"), here.closing),
                 ({"is": "open", "applied": applied}, False))
        same("and at a start", Desk(one.site).closing, False)
        same("no next before the seal", (await step("stop") and await step("next")), "no next now")
        with unittest.mock.patch("logging.info") as info:
            for _ in range(2):
                same("seal", await step("seal"), {"is": "sealed"})
        logged = [call.args[0] for call in info.call_args_list]
        same("what is logged of it", (logged[-1], "ended in 2" in str(logged)), ("the journal is sealed", False))
        same("sealed", (await step("stop"), await step("open")), ({"is": "sealed"}, "no open now"))
        with open(period.journal(0), "rb") as file:
            same("the journal's end", file.read()[-2:], b"\n\t")
        for sites in (2, 3):
            same("next, by the line that came first", await step("next", line=line | {"sites": sites}),
                 {"is": "closed", "line": line})
        await asyncio.wait_for(one.task, PATIENCE)
    following = last_period(folder, "b")
    same("the next period", (following.name, os.path.getsize(following.journal(0))), ("b.0002", 0))
    second = Site(PROGRAM, following, 0, following.kept("bank"))
    past = await Desk(second).step({"bank": NAME, "step": "next", "line": CONFIG})
    same("its past", past, (200, {"is": "closed", "line": line}))
    same("requests of the closed one", list(requests_of(period.journal(0))), ["last"])
    period.keep("closing", False)
    try:
        await asyncio.wait_for(Site(PROGRAM, period, 0, CONFIG).run(), PATIENCE / 10)
    except (Fault, asyncio.TimeoutError) as why:
        same("a sealed journal whose books aren't being closed", str(why), "rbbank: journal is sealed")


def texts(folder: str) -> None:
    """Each refusal that docs/FORMAT.md lists has its text, and all but requests have no key."""
    said = {int(number): text for number, text in site_child.load(os.path.join(HERE, "refusals.json")).items()}
    same("refusals", sorted(said), sorted(bank.NUMBERS))
    same("ranges", [said[number] for number in (2, 3)], [bank.meaning(number) for number in (2, 3)])
    same("what has no key", client.UNKEYED, bank.TAKES.keys() - {*site_child.REQUESTS, "apply", "deliver"})


# ---- HTTP


class Http:
    """A service of a site that has no broker, and what it answers."""

    def __init__(self, folder: str, me: int = 0, **keys: Any) -> None:
        base = cluster.free_ports(2)
        addresses = [f"127.0.0.1:{base + site}" for site in range(2)]
        given: Json = {"name": "b", "config": CONFIG, "program": PROGRAM, "folder": folder,
                       "broker": ["amqp://127.0.0.1:1/"], "http": addresses, **keys}
        self.http, self.port = given["http"], int(given["http"][me].rpartition(":")[2])
        with open(os.path.join(folder, "bank.json"), "w") as file:
            json.dump(given, file)
        words = [sys.executable, os.path.join(HERE, "service.py"), os.path.join(folder, "bank.json"), str(me), "--log",
                 "json"]
        with open(os.path.join(folder, "log"), "ab") as log:
            new = [] if os.path.exists(os.path.join(folder, f"site{me}")) else ["--new"]
            self.process = subprocess.Popen(words + new, stdout=log, stderr=log)
        SERVICES.append(self.process)

    def ask(self, path: str, event: Any = None, **heads: str) -> tuple[int, Any]:
        """The status and the answer."""
        connection = http.client.HTTPConnection("127.0.0.1", self.port, timeout=PATIENCE)
        named = {name.replace("_", "-"): value for name, value in heads.items()}
        body = event if event is None or isinstance(event, str) else json.dumps(event)
        kind = {} if event is None else {"Content-Type": "application/json"}
        connection.request("GET" if event is None else "POST", path, body, kind | named)
        reply = connection.getresponse()
        text = reply.read().decode()
        OBSERVED.append(("get" if event is None else "post", path, body, reply, text))
        self.retry, self.exposed = (reply.getheader(name) for name in ("Retry-After", "Access-Control-Expose-Headers"))
        is_json = reply.getheader("Content-Type", "").startswith("application/json")
        return reply.status, json.loads(text) if is_json else text

    def event(self, event: Any, **heads: str) -> tuple[int, Any]:
        return self.ask("/events", event, **heads)

    def wait(self) -> None:
        end = time.monotonic() + PATIENCE
        while time.monotonic() < end:
            with contextlib.suppress(OSError):
                if self.ask("/health")[0] == 200:
                    return
            time.sleep(0.05)

    def end(self) -> int:
        self.process.send_signal(signal.SIGTERM)
        return self.process.wait(PATIENCE)


def refuses(service: Http) -> None:
    """What is no event, and who may not ask."""
    for bad in ("{", "[[", "7", '{"deposit":["ann",5],"id":[]}', '{"deposit":["ann"]}', '{"shadow":{}}',
                '{"token":[1,0,0]}', '{"about":"site"}', '{"apply":"B0.1"}', '{"deposit":["ann",5],"site":0}',
                '{"deposit":["ann",5],"id":"ü"}', "[" * 100_000):
        same(f"bad: {bad[:40]}", (service.event(bad)[0], "error" in service.event(bad)[1]), (400, True))
    same("a bad event's reason", service.event({"deposit": ["ann", -5], "id": "r"})[1]["error"].split(" and ")[0],
         "column 19: -5 has a sign,")
    same("a form", service.event("x=1", Content_Type="application/x-www-form-urlencoded")[0], 400)
    same("JSON as a form", service.event({"pass": 1}, Content_Type="text/plain")[0], 400)
    same("another page", service.event({"pass": 1}, Origin="http://evil.example")[0], 403)
    same("another name", service.ask("/state", Host="evil.example")[0], 403)


def pays(service: Http, folder: str) -> None:
    """A list is paid once by examples/pay.py, and the client's other ends."""
    path = os.path.join(folder, "wages")
    with open(path, "w") as file:
        file.write("bob 10\nzed 5\n")
    for _ in range(2):
        run = subprocess.run([sys.executable, os.path.join(HERE, "..", "examples", "pay.py"),
                              f"http://{service.http[0]}", "ann", path], capture_output=True, text=True)
        same("paid", (run.returncode, run.stdout, run.stderr),
             (1, "bob 10 paid R1\nzed 5 unknown account \n", ""))
    url = f"http://{service.http[0]}"
    same("a list by a client", Client(url).ask([{"deposit": ["bob", 1]}, {"withdraw": ["bob", 1]}])[1]["name"], "R2")
    same("a balance by a client", Client(url).get("/balance/bob"), {"balance": 24})
    for what, fault, one in (("a path", Denied, Client(url + "/zed")), ("no answer", TimeoutError, Client(
            "http://127.0.0.1:1", patience=0.3))):
        try:
            same(what, one.ask({"deposit": ["ann", 1]}), "refused")
        except fault as why:
            same(what, (one.lost > 1, bool(str(why))), (what == "no answer", True))


def described(folder: str) -> None:
    """openapi.yaml is served, and says what was asked of services and what they answered."""
    import jsonschema
    import yaml
    from service import MAY
    service = Http(folder)
    service.wait()
    page = yaml.safe_load(service.ask("/openapi.yaml")[1])
    schemas = {"components": page["components"]}
    values = {"account": "ann", "to": "bob", "cents": 1, "rate": 5, "name": "B0.1"}
    for event in ({"balance": "ann"}, {"statement": "ann"}, {"asof": ["ann", 0]}, *bank.requests(values), {"pass": 1},
                  {"batch": [{"deposit": ["ann", 1]}, {"deposit": ["bob", 1]}]}):
        service.event(event)
    for path in ("/", "/journals/0001.0.journal"):
        same(f"GET {path}", service.ask(path)[0], 200)
    asks(os.path.join(folder, "asks"))
    tokens(os.path.join(folder, "tokens"))
    watched(service.ask("/metrics")[1])
    same("its verbs", set(page["components"]["schemas"]["Event"]["properties"]) - BESIDE, set(MAY))
    wanted = {(path, method) for path, methods in page["paths"].items() for method in methods}
    found = set()
    for method, asked, body, reply, text in OBSERVED:
        path = next((path for path in page["paths"] if re.fullmatch(re.sub(r"\{.*?\}", "[^/]+", path), asked)), None)
        if path is None or method not in page["paths"][path]:
            same(f"what isn't described: {method} {asked}", reply.status in (401, 403, 404), True)
            continue
        found.add((path, method))
        answers = page["paths"][path][method]["responses"]
        same(f"{method} {asked}: {reply.status} is described", str(reply.status) in answers, True)
        said = answers.get(str(reply.status), {}).get("content", {})
        kind = reply.getheader("Content-Type", "").partition(";")[0]
        same(f"{method} {asked}: {kind} is described", kind in said, True)
        if kind == "application/json" and said.get(kind):
            fault = best(jsonschema.Draft202012Validator(said[kind]["schema"] | schemas), json.loads(text))
            same(f"{method} {asked}: {text[:200]}", fault, None)
    same("all that is described was asked", wanted - found, set())


def watched(text: str) -> None:
    """There is what OPERATING.md has watched, and all is in the metrics."""
    from service import METRICS
    with open(os.path.join(HERE, "OPERATING.md")) as file:
        rows = re.findall(r"(?m)^\| `(\w+)`(?: less `(\w+)`)? \| ", file.read())
    same("what is to be watched", {*sum(rows, ())} - {"", "process_open_fds"} - set(METRICS), set())
    same("metrics", [name for name in METRICS if f"# TYPE rbbank_{name.removesuffix('_total')}" not in text], [])


def best(validator: Any, value: Any) -> str | None:
    """The first difference of a value to a schema."""
    return next((fault.message[:200] for fault in validator.iter_errors(value)), None)


def listens(service: Http) -> None:
    """The state at first, and then whenever it changed."""
    with contextlib.closing(http.client.HTTPConnection("127.0.0.1", service.port, timeout=PATIENCE)) as live:
        live.request("GET", "/live")
        stream = live.getresponse()
        first = json.loads(stream.readline().removeprefix(b"data: "))
        same("a state at first", [one["name"] for one in first["operations"]], ["B0.1", "B0.2", "B0.3"])
        for name, balance in (("B0.4", 7), ("B0.5", 14)):
            service.event({"deposit": ["bob", 7]})
            states: list[Json] = [first]
            while states[-1]["operations"][-1]["name"] != name:
                states.append(json.loads((stream.readline() + stream.readline()).strip().removeprefix(b"data: ")))
                same("only what changed", states[-1] == states[-2], False)
            same("then what changed", states[-1]["balances"]["bob"], balance)


def asks(folder: str) -> None:
    """What clients are answered."""
    os.makedirs(folder, exist_ok=True)
    service = Http(folder)
    service.wait()
    made = {"kind": "deposit", "name": "B0.1"}
    for _ in range(2):
        same("by a key", service.event({"deposit": ["ann", 5]}, Idempotency_Key="k"), (200, made))
    same("by an id", service.event({"deposit": ["ann", 5], "id": "k"}), (200, made))
    same("another by the key", service.event({"deposit": ["ann", 6]}, Idempotency_Key="k")[0], 422)
    same("two keys", service.event({"deposit": ["ann", 5], "id": "k"}, Idempotency_Key="l")[0], 400)
    same("no key", service.event({"deposit": ["ann", 5]}, Idempotency_Key="k k")[0], 400)
    status, replies = service.event([{"deposit": ["ann", 1]}, {"balance": "ann"}], Idempotency_Key="many")
    same("a list", (status, replies), (200, [{"kind": "deposit", "name": "B0.2"}, {"balance": 1006}]))
    same("a part of it again", service.event({"deposit": ["ann", 1]}, Idempotency_Key="many.0"), (200, replies[0]))
    same("a balance", service.ask("/balance/ann"), (200, {"balance": 1006}))
    same("no account", service.ask("/balance/zed"), (404, {"error": "unknown account", "refused": 1}))
    same("a statement", service.ask("/statement/ann")[1]["rows"][0][:4], [1, "B0.1", "deposit", 5])
    same("declined", service.event({"withdraw": ["bob", 1]}), (200, {"kind": "declined", "name": "B0.3"}))
    same("refused", service.event({"cancel": "B0.9"})[1]["error"], "unknown operation at this site")
    same("no path", service.ask("/zed"), (404, {"error": "Not Found"}))
    refuses(service)
    same("the state", [service.ask("/state")[1][key] for key in ("bank", "balances", "unsent")],
         [NAME, {"ann": 1006, "bob": 0}, {"1": 3}])
    listens(service)
    text = service.ask("/metrics")[1]
    for line in ('rbbank_events_total{event="deposit"} ', 'rbbank_refusals_total{number="4"} 1',
                 "rbbank_token_here 1", 'rbbank_unsent{to="1"} 5', "rbbank_child_restarts_total 0",
                 "rbbank_journal_bytes "):
        same(f"metrics have {line}", line in text, True)
    pays(service, folder)
    same("closing", service.ask("/closing", {"bank": NAME, "step": "stop"})[1]["is"], "stopped")
    same("clients wait", (service.event({"deposit": ["ann", 5]})[0], service.retry, service.exposed), (503, "1", None))
    status, _ = service.event({"deposit": ["ann", 5]}, Origin=f"http://{service.http[1]}")
    same("and pages of other sites read how long", (status, service.retry, service.exposed), (503, "1", "Retry-After"))
    same("it ends", service.end(), 0)
    with open(os.path.join(folder, "site0", "0001.confirmed")) as file:
        same("nothing was confirmed", file.read(), "0\n")


def answered(port: int, count: int, *parts: bytes) -> list[tuple[int, bytes]]:
    """The statuses and bodies of this many answers to bytes that come in parts, one a moment after another."""
    found = []
    with socket.create_connection(("127.0.0.1", port), PATIENCE) as asked, asked.makefile("rb") as said:
        for part in parts:
            asked.sendall(part)
            time.sleep(0.2 if len(parts) > 1 else 0)
        for _ in range(count):
            status, length = int(said.readline().split()[1]), 0
            while (line := said.readline()) != b"\r\n":
                length = int(line.split()[1]) if line.lower().startswith(b"content-length:") else length
            found.append((status, said.read(length)))
    return found


def fronts(folder: str) -> None:
    """A request is answered alike however its bytes come, by front.py or by aiohttp."""
    service = Http(folder)
    service.wait()

    def post(body: bytes, *heads: str, length: int | None = None) -> bytes:
        more = [f"Host: {service.http[0]}", "Content-Type: application/json", *heads]
        more += [f"Content-Length: {len(body) if length is None else length}"] if length != -1 else []
        return "\r\n".join(["POST /events HTTP/1.1", *more, "", ""]).encode() + body
    deposit, other = b'{"deposit":["ann",5],"id":"k"}', b'{"deposit":["bob",7],"id":"l"}'
    made, second = ((200, b'{"kind": "deposit", "name": "B0.%d"}' % n) for n in (1, 2))
    whole, chunks = post(deposit), b"%x\r\n%b\r\n0\r\n\r\n" % (len(deposit), deposit)
    for what, count, parts, wanted in (
            ("whole", 1, [whole], [made]),
            ("its body in parts", 2, [whole[:-20], whole[-20:-5], whole[-5:] + post(other)], [made, second]),
            ("spaces in parts", 2, [post(deposit + b" " * 9)[:-9], b" " * 9 + post(other)], [made, second]),
            ("its head in parts", 1, [whole[:30], whole[30:]], [made]),
            ("spaces around a key", 1, [post(b'{"deposit":["ann",5]}', "Idempotency-Key:  k ")], [made]),
            ("two at once", 2, [whole + post(other)], [made, second]),
            ("and a half", 2, [whole + post(other)[:-9], post(other)[-9:]], [made, second]),
            ("a question between", 3, [whole + b"GET /zed HTTP/1.1\r\nHost: %b\r\n\r\n" % service.http[0].encode()
                                       + whole], [made, (404, b'{"error": "Not Found"}'), made]),
            ("in chunks", 1, [post(chunks, "Transfer-Encoding: chunked", length=-1)], [made]),
            ("an old client", 1, [whole.replace(b"HTTP/1.1", b"HTTP/1.0")], [made])):
        same(what, answered(service.port, count, *parts), wanted)
    for what, text in (("two lengths", post(deposit, "Content-Length: 5")), ("no length", post(b"", length=-1)),
                       ("chunks and a length", post(deposit, "Transfer-Encoding: chunked"))):
        same(what, answered(service.port, 1, text)[0][0], 400)
    same("too long", answered(service.port, 1, post(b" " * (1 << 20) + deposit))[0][0], 413)
    with open(f"/proc/{service.process.pid}/task/{service.process.pid}/children") as file:
        child = int(file.read().split()[0])
    os.kill(child, signal.SIGSTOP)
    threading.Timer(1, os.kill, (child, signal.SIGCONT)).start()
    both = answered(service.port, 2, post(deposit), post(b'{"x":1}'))
    same("one at a time", [status for status, _ in both], [200, 400])


def apart(folder: str) -> None:
    """The books aren't closed while a site lacks what another one has, and clients are served again."""
    first = Http(folder)
    second = Http(folder, 1, http=first.http)
    for service in (first, second):
        service.wait()
    first.event({"deposit": ["ann", 5]})
    words = [sys.executable, os.path.join(HERE, "close.py"), os.path.join(folder, "bank.json"), NAME,
             os.path.join(folder, "archive"), "--patience", "1"]
    run = subprocess.run(words, capture_output=True, text=True, timeout=PATIENCE)
    same("sites that are apart, said at once and at the end",
         (run.returncode, run.stderr.count("the sites haven't applied the same")), (1, 2))
    same("clients are served", [service.event({"deposit": ["ann", 5]})[0] for service in (first, second)], [200, 200])


async def waits(folder: str) -> None:
    """Clients are sent away while too much waits."""
    import service
    given = {"name": "b", "config": CONFIG, "program": PROGRAM, "folder": folder, "broker": [], "http": ["127.0.0.1:1"]}
    one = service.Service(given, 0, True)
    for waiting, unconfirmed in ((service.MOST_WAITING, 0), (0, service.MOST_UNCONFIRMED)):
        asked: tuple[Json, str, Any] = ({}, "{}", asyncio.get_running_loop().create_future())
        one.site.asked.clear()
        one.site.asked.extend([asked] * waiting)
        one.wires.out[1].clear()
        one.wires.out[1].extend([(0, b"")] * unconfirmed)
        same("not yet too much", (await one.takes({"x": 1}, None, set()))[0], 400)
        one.ask({"balance": "ann"})
        one.site.asked.append(asked)
        one.wires.out[1].append((0, b""))
        status, said = await one.takes({"balance": "ann"}, None, {"read"})
        same("too much", (status, said), (503, {"error": "too much waits"}))


def tokens(folder: str) -> None:
    """Who may do what."""
    os.makedirs(folder, exist_ok=True)
    path = os.path.join(folder, "tokens.json")
    with open(path, "w") as file:
        json.dump({"officer": {"may": ["cancel"], "token": "t2"}, "till": {"may": ["ask", "read"], "token": "t1"}},
                  file)
    alone = Http(folder, http=["0.0.0.0:1", "127.0.0.1:1"])
    same("without tokens it listens on loopback alone", alone.process.wait(PATIENCE), 2)
    with open(os.path.join(folder, "log")) as file:
        *_, last = map(json.loads, file)
    same("and says so, in JSON", (last["level"], last["site"], last["text"][:14]), ("error", 0, "without tokens"))
    service = Http(folder, tokens=path)
    service.wait()
    till, officer = {"Authorization": "Bearer t1"}, {"Authorization": "Bearer t2"}
    with open(os.path.join(folder, "bank.json")) as file, open(os.path.join(folder, "none.json"), "w") as other:
        json.dump(json.load(file) | {"tokens": None}, other)
    for name, fault in (("bank.json", f"{path} has no token that may close"), ("none.json", "site 0: 401 {")):
        run = subprocess.run([sys.executable, os.path.join(HERE, "close.py"), os.path.join(folder, name), NAME, folder],
                             capture_output=True, text=True, timeout=PATIENCE / 10)
        same("a closing without a token", (run.returncode, run.stderr[:len(fault) + 7]), (1, f"close: {fault}"))
    same("no token", [service.ask(path)[0] for path in ("/state", "/balance/ann", "/metrics", "/live", "/closing",
                                                        "/journals/0001.0.journal")], [401] * 6)
    same("no such token", [service.event({"deposit": ["ann", 1]}, Authorization=f"Bearer {it}")[0]
                           for it in ("", "t", "t11", "T1", "é")], [401] * 5)
    same("a till asks", service.event({"deposit": ["ann", 1]}, **till)[0], 200)
    same("and cancels nothing", service.event({"cancel": "B0.1"}, **till),
         (403, {"error": "this client may not cancel"}))
    same("nor in a batch", service.event({"batch": [{"cancel": "B0.1"}]}, **till)[0], 403)
    same("nor closes", service.ask("/closing", {"bank": NAME, "step": "stop"}, **till)[0], 403)
    same("an officer cancels", service.event({"cancel": "B0.1"}, **officer)[0], 200)
    same("and reads nothing", service.ask("/balance/ann", **officer)[0], 403)
    same("anyone may ask for its health", service.ask("/health")[0], 200)
    same("it ends", service.end(), 0)


# ---- the broker


class Pretended:
    """A site that notes what it is asked, applies something, and answers once it may; at first by these refusals."""

    def __init__(self, folder: str, me: int, *refusals: int) -> None:
        self.period, self.me, self.config = Period(folder, "b", 1), me, CONFIG
        self.view, self.entries, self.up = View(CONFIG, 1), 7, asyncio.Event()
        self.asked: list[str] = []
        self.refusals = list(refusals)

    def ask(self, event: Json, line: str = "") -> Awaitable[Json]:
        self.asked.append(event["shadow"]["name"] if event else "nothing")
        return asyncio.ensure_future(self.answer())

    async def answer(self) -> Json:
        await self.up.wait()
        self.view.clock["R"] += 1
        return {"reply": {"refused": self.refusals.pop(0)} if self.refusals else {"held": "B0.1"}}


def shadow(name: str) -> bytes:
    """A message of a site."""
    return json.dumps({"shadow": {"name": name}}).encode()


class Lost:
    """A connection whose broker ends before it confirms anything."""

    def __init__(self) -> None:
        self.default_exchange, self.name = self, ""

    async def channel(self, **_: Any) -> Lost:
        return self

    async def declare_queue(self, *_: Any, **__: Any) -> Lost:
        return self

    async def publish(self, *_: Any, **__: Any) -> None:
        raise ConnectionError


def wires(folder: str, me: int, urls: list[str], *refusals: int) -> tuple[Any, Pretended]:
    """The wires of a pretended site."""
    import wires as module
    site: Any = Pretended(folder, me, *refusals)
    return module.Wires(Desk(site), urls), site


async def keeps(folder: str) -> None:
    """A message that finds no place at a site is given again, and one that the broker didn't confirm is kept."""
    made, site = wires(folder, 1, [], 16, 23, 16)
    site.up.set()
    await made.take(b'{"shadow":{"name":"B0.1"}}\n{"shadow":{"name":"B0.2"}}')
    same("given until there is a place", site.asked, ["B0.1", "B0.2", "B0.1", "B0.1", "B0.2"])
    await made.take(b'{"deposit":["ann",5]}\n[{')
    same("what is no message is no event", site.asked[5:], ["nothing", "nothing"])
    made.send(3, [shadow("B1.1")])
    with contextlib.suppress(ConnectionError):
        await made.publish(Lost(), 0)
    same("what isn't confirmed", (made.unconfirmed(), made.confirmed()), (1, 3))
    site.refusals = [18, 18]
    await made.take(b'{"shadow":{"home":0,"name":"B0.2"}}\n{"shadow":{"home":0,"name":"B0.3"}}')
    other = wires(folder, 0, [])[0].desk
    with unittest.mock.patch("logging.error") as error:
        for _ in range(2):
            await other.hears(message(made.desk.says()))
    found = [call.args[0] % call.args[1:] for call in error.call_args_list]
    same("an older copy", found, ["an older copy of the journal of site 0 was started: site 1 has another B0.2"])
    import wires as module
    connect = module.aio_pika.connect
    for fault in (module.PAMQPException, StopAsyncIteration, Exception):  # what a connection's end comes to at times
        async def fails(*_: Any, fault: type[Exception] = fault, **__: Any) -> None:
            raise fault
        module.aio_pika.connect = fails
        task = asyncio.create_task(wires(folder, 1, ["amqp://127.0.0.1:1/"])[0].run())
        await asyncio.wait({task}, timeout=0.5)
        same(f"{fault.__name__} ends no service", task.done(), False)
        task.cancel()
    module.aio_pika.connect = connect


async def queues(folder: str) -> None:
    """A queue gives what it has in order, to one at a time, and what it has confirmed is counted; it may be lost."""
    broker = cluster.Cluster(folder, PATIENCE)
    try:
        broker.start(0)
        await asyncio.to_thread(broker.wait, 0)
        await ordered(folder, broker)
    finally:
        broker.stop()


async def ordered(folder: str, broker: cluster.Cluster) -> None:
    import wires as module
    (sender, _), (first, slow), (second, late) = (wires(folder, me, broker.urls()[:1]) for me in (0, 1, 1))
    names = [f"B0.{n}" for n in range(1, 42)]
    for entry, name in enumerate(names[:-1]):
        sender.send(entry, [shadow(name)])
    same("confirmed before there is a broker", sender.confirmed(), 0)
    tasks = [asyncio.create_task(first.run())]
    await until("connected", lambda: bool(first.is_connected))
    module.MOST_LINES, module.SILENCE = 1, 0.5  # a message of the broker for each; consumers are made anew often
    tasks.append(asyncio.create_task(sender.run()))
    await until("the first is asked", lambda: bool(slow.asked))
    await until("all is confirmed", lambda: sender.confirmed() == 7 and not sender.unconfirmed())
    broker.signal(0, signal.SIGSTOP)
    sender.send(40, [shadow(names[-1])])
    await asyncio.sleep(1)
    same("unconfirmed while the broker is held", sender.unconfirmed(), 1)
    broker.signal(0, signal.SIGCONT)
    await until("it is confirmed", lambda: not sender.unconfirmed())
    tasks.append(asyncio.create_task(second.run()))
    await until("the second is connected", lambda: bool(second.is_connected))
    await asyncio.sleep(2)
    same("a second consumer waits", late.asked, [])
    tasks[0].cancel()
    late.up.set()
    await until("the second has all", lambda: len(late.asked) >= len(names))
    same("in order", late.asked, names)
    await asyncio.to_thread(broker.ctl, 0, "delete_queue", f"{NAME}.0.1")  # its consumer ends without a word
    sender.send(41, [shadow("B0.42")])
    await until("a consumer that was lost is there again", lambda: late.asked[-1] == "B0.42")
    for task in tasks:
        task.cancel()
    await asyncio.gather(*tasks, return_exceptions=True)


def periods(folder: str) -> None:
    """The books are closed by the command: the next period begins, and requests of the one before are still known."""
    broker = cluster.Cluster(os.path.join(folder, "broker"), PATIENCE)
    try:
        broker.start(0)
        broker.wait(0)
        first = Http(folder, broker=broker.urls()[:1])
        second = Http(folder, 1, broker=broker.urls()[:1], http=first.http)
        for service in (first, second):
            service.wait()
        made = {"kind": "deposit", "name": "B0.1"}
        same("a request", first.event({"deposit": ["ann", 5]}, Idempotency_Key="k"), (200, made))
        archive = os.path.join(folder, "archive")
        words = [sys.executable, os.path.join(HERE, "close.py"), os.path.join(folder, "bank.json"), NAME, archive]
        for _ in range(2):
            run = subprocess.run([*words, "--account", "zed"], capture_output=True, text=True, timeout=PATIENCE)
            same("closed", (run.returncode, re.sub("(?m)^close: waits: .*\n", "", run.stderr)), (0, ""))
        same("the archive", sorted(os.listdir(archive)), ["0001.0.journal", "0001.1.journal", "0002.bank"])
        for service in (first, second):
            service.wait()
            state = service.ask("/state")[1]
            same("the next period", (state["bank"], state["balances"]), ("b.0002", {"ann": 1005, "bob": 0, "zed": 0}))
        known = (200, made | {"bank": NAME})
        same("the request again", first.event({"deposit": ["ann", 5]}, Idempotency_Key="k"), known)
        same("another one by its key", first.event({"deposit": ["ann", 6]}, Idempotency_Key="k")[0], 422)
        same("one that is meant", first.event({"deposit": ["ann", 5], "bank": "b.0002"}, Idempotency_Key="k"),
             (200, made))
    finally:
        broker.stop()


ALONE, HTTP, BROKER = (
    (lines, kills, unheard, restarts, faults, token, closes, texts), (described, fronts, apart, waits, keeps),
    (queues, periods))
GROUPS: dict[str, tuple[Callable[[str], Any], ...]] = {
    "": ALONE, "--http": ALONE + HTTP, "--broker": ALONE + HTTP + BROKER}


def main() -> int:
    words, known = sys.argv[2:], {check.__name__: check for check in (*GROUPS["--broker"], asks, tokens)}
    checks = GROUPS.get(" ".join(words)) or tuple(known[word] for word in words if word in known)
    if not os.access(PROGRAM, os.X_OK) or os.path.isdir(PROGRAM) or not checks:
        print(__doc__)
        return 2
    logging.disable(logging.CRITICAL)
    if not set(checks) <= set(ALONE):
        cluster.check_packages("jsonschema", "yaml")
    for check in checks:
        with tempfile.TemporaryDirectory(prefix="check-") as folder:
            try:
                done = check(folder)
                if done is not None:
                    asyncio.run(done)
            except Exception as why:
                PROBLEMS.append(f"{check.__name__} ends by {why!r}")
            finally:
                for service in SERVICES:
                    service.kill()
    print("\n".join(PROBLEMS) or f"{len(checks)} checks: " + ", ".join(check.__name__ for check in checks))
    return 1 if PROBLEMS else 0


if __name__ == "__main__":
    sys.exit(main())
