#!/usr/bin/env python3
"""One site of a bank as a service: HTTP for clients, RabbitMQ to the other sites, the proved program as its child.

usage: service.py BANK SITE [--new] [--log json]

BANK is a file like bank.json, SITE a number; --new begins its first period; --log json logs a line of JSON for each.
SIGTERM ends it once all that was asked is answered, and what was reported is confirmed by the broker. README.md lists
what clients may ask, and the keys of BANK.
"""
import argparse
import asyncio
import contextlib
import datetime
import functools
import gc
import hmac
import json
import logging
import os
import shutil
import signal
import sys
from collections import Counter
from collections.abc import Callable, Iterator
from typing import Any

from aiohttp import web
from aiohttp.typedefs import Handler
from prometheus_client import CONTENT_TYPE_LATEST, CollectorRegistry, Metric, ProcessCollector, generate_latest
from prometheus_client.core import CounterMetricFamily, GaugeMetricFamily

from front import Front, Says
from site_child import REQUESTS, Desk, Fault, Json, Site, compact, last_period, load, requests_of, until
from view import BESIDE
from wires import Wires, together

HERE = os.path.dirname(os.path.abspath(__file__))
MAY = dict.fromkeys((*REQUESTS, "pass"), "ask") | {"cancel": "cancel"} | dict.fromkeys(
    ("balance", "statement", "asof"), "read")  # what a client has to be allowed
PATHS = {"": None, "health": None, "openapi.yaml": None, "events": set[str](), "closing": {"close"},
         "journals": {"close"}}  # what a client has to be allowed for a path, if it isn't `read`
MOST_WAITING = 20_000  # events that wait for the site, beyond which clients are sent away
MOST_UNCONFIRMED = 1_000_000  # messages that wait for the broker, the same
METRICS = {  # their meanings, and the labels of those that have parts; OPERATING.md says when to act
    "applied": ("Operations that the site applied.",),
    "behind": ("Operations that another site said it applied, and this one lacks.", "site"),
    "broker": ("Whether a node of the broker is connected.",),
    "child_restarts_total": ("Times that the child was started again.",),
    "closing": ("Whether the books are being closed, so that clients have to wait.",),
    "confirmed_entries": ("Entries, from the first on, whose messages the broker has.",),
    "entries": ("Entries whose messages were handed on.",),
    "events_total": ("Events that the site answered.", "event"),
    "held": ("Operations that wait in the inbox for others.",),
    "http_answers_total": ("Answers to clients.", "status"),
    "journal_bytes": ("Bytes of the period's journal.",),
    "journal_free_bytes": ("Bytes that the journal's disk has left.",),
    "refusals_total": ("Events that the site refused.", "number"),
    "token_epoch": ("How often the token was passed.",),
    "token_here": ("Whether the site has the token.",),
    "unsent": ("Messages that the broker hasn't confirmed.", "to"),
    "up": ("Whether the child runs and answers.",),
    "waiting": ("Events that the site hasn't answered.",),
    "waiting_for_token": ("Requests that wait for the token.",)}
ANSWER = 30  # seconds in which a client is answered, if only that there is no answer yet
TOKEN = 10  # seconds that a request may wait for the token
PATIENCE = 15  # seconds for each part of an orderly end
REFUSALS: dict[str, str] = load(os.path.join(HERE, "refusals.json"))


def reply_of(status: int, value: Any) -> web.Response:
    return web.json_response(value, status=status)


def says(answer: Json) -> Says:
    """What a client hears of a site's answer."""
    if (reply := answer.get("reply")) is None:
        return 400, {"error": answer.get("why", "no event, or no key, as docs/FORMAT.md has it")}
    if "refused" not in reply:
        return 200, reply
    error = REFUSALS.get(str(reply["refused"]), "refused")
    return {1: 404, 25: 422}.get(reply["refused"], 409), reply | {"error": error}


def allow(wanted: set[str], may: set[str]) -> None:
    if not wanted <= may:
        raise web.HTTPForbidden(text=f"this client may not {', '.join(sorted(wanted - may))}")


class Service:
    def __init__(self, bank: Json, me: int, is_new: bool) -> None:
        self.bank, self.me, self.folder = bank, me, os.path.join(bank["folder"], f"site{me}")
        self.clients = [*load(bank["tokens"]).values()] if bank.get("tokens") else []
        self.urls = bank.get("urls") or [f"http://{address}" for address in bank["http"]]
        self.host, _, self.port = bank["http"][me].rpartition(":")
        if not self.clients and self.host not in ("127.0.0.1", "localhost"):
            raise Fault(f"without tokens a service listens on 127.0.0.1 alone, and not on {self.host}")
        os.makedirs(self.folder, exist_ok=True)
        last = last_period(self.folder, bank["name"])
        if is_new == (last.number > 0):
            raise Fault(f"{self.folder}: {'there is a bank' if is_new else 'no bank; --new begins one'}")
        self.period = last.other(1) if is_new else last
        self.earlier = requests_of(self.period.other(-1).journal(me))
        self.site = Site(bank["program"], self.period, me, self.period.begin(me, bank["config"]))
        self.view, self.desk = self.site.view, Desk(self.site)
        self.wires = Wires(self.desk, bank["broker"])
        self.asking = dict[str, asyncio.Future[Json]]()  # requests with ids that are under way, by their lines
        self.statuses, self.ends, self.registry = Counter[int](), asyncio.Event(), CollectorRegistry()
        self.registry.register(self)  # type: ignore[arg-type]
        ProcessCollector(registry=self.registry)
        logging.info("%s at %s", self.period.name, self.urls[me])

    # ---- events

    def ask(self, event: Json, line: str | None = None) -> asyncio.Future[Json]:
        """Gives the site an event, unless clients have to wait."""
        if self.ends.is_set() or self.desk.closing:
            raise web.HTTPServiceUnavailable(text="the service ends, or its books are being closed")
        if len(self.site.asked) + self.desk.waiters > MOST_WAITING or self.wires.unconfirmed() > MOST_UNCONFIRMED:
            raise web.HTTPServiceUnavailable(text="too much waits")
        return self.site.ask(event, line)

    def answers(self, events: list[Any], keys: list[str | None], may: set[str],
                shape: Callable[[list[Says]], Says]) -> asyncio.Future[Says]:
        """The statuses and what the site answers to a client's events, in this shape, once that is on the disk."""
        loop = asyncio.get_running_loop()
        done: asyncio.Future[Says] = loop.create_future()
        found: list[Says] = [(503, {"error": "no answer yet: ask again by the same key"})] * len(events)
        left = 1

        def ends(least: int = 0) -> None:
            nonlocal left
            left -= 1
            if left <= least and not done.done():
                timer.cancel()
                done.set_result(shape(found))

        def hears(place: int, asked: asyncio.Future[Json]) -> None:
            if not asked.cancelled() and (why := asked.exception()):
                found[place] = 503, {"error": str(getattr(why, "text", why))}
            elif not asked.cancelled():  # (else the service ends: no answer yet)
                found[place] = says(asked.result())
            ends()

        timer = loop.call_later(ANSWER, ends, len(events))
        for place, (event, key) in enumerate(zip(events, keys)):
            try:
                self.check(event, key, may)
                if known := self.known(event):
                    found[place] = says(known)
                else:
                    self.once(event).add_done_callback(functools.partial(hears, place))
                    left += 1
            except web.HTTPException as why:
                found[place] = why.status, {"error": why.text}
        ends()
        return done

    def check(self, event: Any, key: str | None, may: set[str]) -> None:
        """Gives an event its key, if it is one that the client may ask for. The site looks at the rest."""
        verbs = event.keys() - BESIDE if isinstance(event, dict) else set()
        if len(verbs) != 1 or not verbs <= MAY.keys():
            raise web.HTTPBadRequest(text="an event is an object with one of " + ", ".join(MAY))
        verb, = verbs
        if key is not None and MAY[verb] != "read" and event.setdefault("id", key) != key:
            raise web.HTTPBadRequest(text="the event has another id than its Idempotency-Key")
        allow({MAY[verb]} | ({"cancel"} if verb == "batch" and '"cancel":' in compact(event) else set()), may)

    def known(self, event: Json) -> Json:
        """The answer to a request that was made in the period before, unless this one is said to be meant; or none."""
        line = self.earlier.get(str(event.get("id")))
        if line is None or event.get("bank") == self.period.name:
            return {}
        entry: Json = json.loads(line)
        is_same = entry["event"] == {verb: given for verb, given in event.items() if verb not in BESIDE}
        return {"reply": entry["reply"] | {"bank": self.period.other(-1).name} if is_same else {"refused": 25}}

    def once(self, event: Json) -> asyncio.Future[Json]:
        """Asks the site. A request that is under way isn't asked beside itself, since it may be refused yet."""
        if "id" not in event:
            return self.desk.ask(lambda: self.ask(event), TOKEN)
        line = compact(event)
        if not (future := self.asking.get(line)):
            future = self.asking[line] = self.desk.ask(lambda: self.ask(event, line), TOKEN)
            future.add_done_callback(lambda done: self.asking.pop(line, None))
        return future

    async def post(self, request: web.Request) -> web.Response:
        try:
            if request.content_type != "application/json":
                raise ValueError("another one may be sent by anybody's page")
            given = json.loads(await request.read())
        except (ValueError, RecursionError) as why:
            raise web.HTTPBadRequest(text=f"wanted: JSON, with Content-Type: application/json ({why})") from None
        return reply_of(*await self.takes(given, request.headers.get("Idempotency-Key"), request["may"]))

    def takes(self, given: Any, key: str | None, may: set[str]) -> asyncio.Future[Says]:
        """What a client hears of an event, or of a list."""
        if not isinstance(given, list):
            return self.answers([given], [key], may, lambda found: found[0])
        keys = [None if key is None else f"{key}.{number}" for number in range(len(given))]
        return self.answers(given, keys, may, lambda found: (
            max((status for status, _ in found), default=200), [reply for _, reply in found]))

    def plain(self, heads: dict[bytes, bytes], body: bytes) -> asyncio.Future[Says] | None:
        """Begins to answer a plain POST /events, if it is one that is answered by the site; for front.py."""
        with contextlib.suppress(ValueError, RecursionError, web.HTTPException):
            given = json.loads(body)
            may = self.may(heads.get(b"authorization", b"").decode(), heads.get(b"host", b"").decode())
            if heads.get(b"content-type", b"").lower() == b"application/json":
                key = heads.get(b"idempotency-key")
                future = self.takes(given, None if key is None else key.decode(), may)
                future.add_done_callback(lambda done: self.statuses.update((done.result()[0],)))
                return future
        return None

    async def question(self, request: web.Request) -> web.Response:
        asked = {request.match_info["verb"]: request.match_info["account"]}
        return reply_of(*await self.takes(asked, None, request["may"]))

    # ---- the console and machines

    def facts(self) -> Json:
        """Where the service is, and what it counts."""
        site, view, wires, desk = self.site, self.view, self.wires, self.desk
        return {"applied": view.clock.total(), "bank": self.period.name, "behind": desk.behind(), "up": site.up,
                "broker": wires.is_connected, "child_restarts_total": max(0, site.starts - 1), "entries": site.entries,
                "closing": desk.closing, "confirmed_entries": wires.confirmed(), "events_total": view.events,
                "held": len(view.held), "http_answers_total": self.statuses, "refusals_total": view.refused,
                "journal_bytes": os.path.getsize(self.period.journal(self.me)), "waiting": len(site.asked),
                "site": self.me, "token_epoch": view.token["epoch"], "token_here": view.token["here"],
                "unsent": {at: len(lines) for at, lines in wires.out.items()}, "waiting_for_token": desk.waiters}

    async def shown(self) -> Json:
        """What the console is shown."""
        if self.site.up and self.view.stale:
            await asyncio.wait({asyncio.ensure_future(self.view.refresh(self.site.ask))}, timeout=2)
        return self.facts() | self.view.shown() | {"sites": self.urls}

    async def state(self, request: web.Request) -> web.Response:
        return reply_of(200, await self.shown())

    async def live(self, request: web.Request) -> web.StreamResponse:
        """The state, and again whenever it changed, ten times a second at most; less often to one who reads slowly."""
        response = web.StreamResponse(headers={"Content-Type": "text/event-stream", "Cache-Control": "no-store"})
        await response.prepare(request)
        before = ""
        with contextlib.suppress(ConnectionError):
            while not self.ends.is_set() and request.transport:
                if (now := json.dumps(await self.shown())) != before:
                    await response.write(f"data: {now}\n\n".encode())
                before = now
                await asyncio.sleep(0.1)
        return response

    async def console(self, request: web.Request) -> web.FileResponse:
        return web.FileResponse(os.path.join(HERE, "console.html"))

    async def health(self, request: web.Request) -> web.Response:
        facts = {name: sum(it.values()) if isinstance(it, dict) else it for name, it in self.facts().items()}
        return reply_of(200 if self.site.up and not self.ends.is_set() else 503, facts)

    def collect(self) -> Iterator[Metric]:
        """What is counted, for prometheus_client."""
        facts = self.facts() | {"journal_free_bytes": shutil.disk_usage(self.folder).free}
        for name, (meaning, *labels) in METRICS.items():
            kind = CounterMetricFamily if name.endswith("_total") else GaugeMetricFamily
            metric = kind(f"rbbank_{name}", meaning, labels=labels)
            for at, part in facts[name].items() if labels else [("", facts[name])]:
                metric.add_metric([str(at)] if labels else [], part)
            yield metric

    async def metrics(self, request: web.Request) -> web.Response:
        return web.Response(body=generate_latest(self.registry), headers={"Content-Type": CONTENT_TYPE_LATEST})

    async def openapi(self, request: web.Request) -> web.FileResponse:
        return web.FileResponse(os.path.join(HERE, "openapi.yaml"))

    # ---- closing

    async def step(self, request: web.Request) -> web.Response:
        """A step of close.py."""
        try:
            return reply_of(*await self.desk.step(await request.json()))
        except OSError as why:
            raise web.HTTPServiceUnavailable(text=f"the site's disk: {why}") from None

    # ---- from start to end

    @web.middleware
    async def guard(self, request: web.Request, handler: Handler) -> web.StreamResponse:
        """Who may ask."""
        try:
            if request.headers.get("Origin") not in (None, *self.urls):
                raise web.HTTPForbidden(text="not from here")
            if request.method == "OPTIONS":
                return web.Response()
            if (wanted := PATHS.get(request.path.strip("/").split("/")[0], {"read"})) is not None:
                request["may"] = self.may(request.headers.get("Authorization", ""), request.host)
                allow(wanted, request["may"])
            return await handler(request)
        except web.HTTPException as why:
            return reply_of(why.status, {"error": (why.text or "").removeprefix(f"{why.status}: ")})

    def may(self, given: str, host: str) -> set[str]:
        """What a client may do: anything, if no token is configured. Each token is compared whole. Without tokens, a
        name that someone else's page gave to this address is no name of ours."""
        if not self.clients:
            if host != self.bank["http"][self.me]:
                raise web.HTTPForbidden(text="not from here")
            return {"ask", "cancel", "close", "read"}
        token = given.removeprefix("Bearer ").encode(errors="surrogateescape")
        found = [set(row["may"]) for row in self.clients if hmac.compare_digest(row["token"].encode(), token)]
        if not found:
            raise web.HTTPUnauthorized(text="a token is wanted: Authorization: Bearer ...")
        return found[0]

    async def finish(self, request: web.Request, response: web.StreamResponse) -> None:
        """Counts an answer. Pages of the other sites of this bank may read it; those of anyone else may not."""
        self.statuses[response.status] += 1
        if response.status == 503:
            response.headers["Retry-After"] = "1"
        if request.headers.get("Origin") in self.urls:
            response.headers.update({"Access-Control-Allow-Origin": request.headers["Origin"], "Vary": "Origin",
                                     "Access-Control-Allow-Headers": "Authorization, Content-Type, Idempotency-Key",
                                     "Access-Control-Expose-Headers": "Retry-After"})

    async def ending(self) -> None:
        """An orderly end: all that was asked is answered, and what was reported is confirmed."""
        await self.ends.wait()
        await self.site.stop(PATIENCE)
        await until(lambda: not self.wires.unconfirmed(), PATIENCE)
        self.period.keep("confirmed", self.wires.confirmed())

    async def run(self) -> None:
        """Serves clients until the service ends, or the next period has begun: then this process starts anew."""
        for number in signal.SIGTERM, signal.SIGINT:
            asyncio.get_running_loop().add_signal_handler(number, self.ends.set)
        app = web.Application(middlewares=[self.guard], client_max_size=1 << 20)
        app.on_response_prepare.append(self.finish)
        app.add_routes([web.get("/", self.console), web.get("/{verb:balance|statement}/{account}", self.question),
                        web.post("/events", self.post), web.get("/state", self.state), web.get("/live", self.live),
                        web.get("/health", self.health), web.get("/metrics", self.metrics),
                        web.get("/openapi.yaml", self.openapi),
                        web.post("/closing", self.step), web.static("/journals", self.folder)])
        runner = web.AppRunner(app, access_log=None)
        await runner.setup()
        host = self.bank.get("listen", self.host)
        loop = asyncio.get_running_loop()
        server = await loop.create_server(lambda: Front(self.plain, runner.server, loop=loop, access_log=None), host,
                                          int(self.port), backlog=1024)
        await together(PATIENCE, self.site.run(), self.wires.run(), self.desk.run(), self.ending())
        server.close()
        await runner.server.shutdown(1)
        await runner.cleanup()
        if not self.ends.is_set():
            os.execv(sys.executable, [sys.executable, *(word for word in sys.argv if word != "--new")])


class JsonLine(logging.Formatter):
    """What is logged, as a line of JSON."""

    def __init__(self, site: int) -> None:
        super().__init__()
        self.site = site

    def format(self, record: logging.LogRecord) -> str:
        at = datetime.datetime.fromtimestamp(record.created, datetime.timezone.utc).isoformat(timespec="milliseconds")
        said = {"at": at, "level": record.levelname.lower(), "site": self.site, "text": record.getMessage()}
        return json.dumps(said | ({"fault": self.formatException(record.exc_info)} if record.exc_info else {}))


def options() -> argparse.Namespace:
    reader = argparse.ArgumentParser(description=__doc__, formatter_class=argparse.RawDescriptionHelpFormatter)
    reader.add_argument("bank", metavar="BANK")
    reader.add_argument("site", metavar="SITE", type=int)
    reader.add_argument("--new", action="store_true")
    reader.add_argument("--log", choices=("json", "text"), default="text")
    return reader.parse_args()


async def main() -> None:
    asked = options()
    out = logging.StreamHandler()
    out.setFormatter(JsonLine(asked.site) if asked.log == "json" else logging.Formatter(
        f"%(asctime)s site {asked.site}: %(message)s"))
    logging.basicConfig(level=logging.INFO, handlers=[out])
    logging.getLogger("aiormq").setLevel(logging.CRITICAL)  # (wires.py says how a connection failed)
    try:
        await Service(load(asked.bank), asked.site, asked.new).run()
    except Fault as why:
        logging.error("%s", why)
        sys.exit(2)


if __name__ == "__main__":
    with contextlib.suppress(ImportError):
        import uvloop
        uvloop.install()
    gc.set_threshold(100_000, 10, 10)  # (each event makes some objects and no cycle: looking for those took a third)
    asyncio.run(main())
