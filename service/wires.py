"""Carries messages between sites by RabbitMQ: a quorum queue for each ordered pair of sites, and each period.

A queue with one active consumer, and one message at a time on its way to it, keep what a site sent in order, whatever
connection dies. So the operation that all others rest on is the first of some queue, and a site whose inbox is full can
let a queue wait. Out: what a site reported waits here, with its entry, until a majority of the broker's nodes has it on
the disk. The number of entries of which all is confirmed is in a file, which may be old: then more is sent again. In: a
delivery is acknowledged once the site has answered each of its lines.
"""
import asyncio
import contextlib
import itertools
import json
import logging
from collections.abc import Coroutine
from typing import Any

import aio_pika
from aio_pika.abc import AbstractChannel, AbstractConnection, AbstractQueue
from pamqp.exceptions import PAMQPException

from site_child import Desk, Json, compact, until

MOST_LINES = 500  # of one message of the broker
GATHER = 0.01  # seconds between two of its messages to a site: what a site reports until then goes in one
PREFETCH = 4  # deliveries of each queue that wait here
PATIENCE = 20  # seconds for a confirm, or whatever else is asked of the broker
SILENCE = 20.0  # seconds after which a queue is given another consumer
LONG = 60  # seconds that a queue may wait for an operation that others bring
SAY = 0.1  # seconds between two times that a service says where it is
FULL = (16, 23)  # refusals of a message that isn't lost by them: its queue waits
ANOTHER = 18  # the refusal of a message with the name of another operation
FAULTS = (aio_pika.exceptions.AMQPError, PAMQPException, OSError, asyncio.TimeoutError, RuntimeError,
          StopAsyncIteration)  # (the last, if a connection ends in its handshake)


def is_fault(why: Exception) -> bool:
    """Whether the broker or its client is at fault. The client may end what waits for a channel by plain Exception."""
    return isinstance(why, FAULTS) or type(why) is Exception


async def together(again: float, *parts: Coroutine[Any, Any, Any]) -> None:
    """Runs these until one of them ends, and then ends the others. A cancellation that comes as a call with a timeout
    returns is lost, so they are cancelled again, each time after this number of seconds."""
    tasks = {asyncio.create_task(part) for part in parts}
    try:
        done, _ = await asyncio.wait(tasks, return_when=asyncio.FIRST_COMPLETED)
        done.pop().result()
    finally:
        while left := [task for task in tasks if not task.done()]:
            for task in left:
                task.cancel()
            await asyncio.wait(left, timeout=again)
        for task in tasks:
            if not task.cancelled():
                task.exception()  # (else it is logged that nobody looked at it)


class Wires:
    def __init__(self, desk: Desk, urls: list[str]) -> None:
        self.site, self.period, self.desk, self.urls, self.is_connected = desk.site, desk.site.period, desk, urls, False
        self.others = [other for other in range(self.site.config["sites"]) if other != self.site.me]
        self.out: dict[int, list[tuple[int, bytes]]] = {other: [] for other in self.others}  # entries, and their lines
        self.more = {other: asyncio.Event() for other in self.others}
        self.site.send = self.send

    def send(self, entry: int, messages: list[bytes]) -> None:
        """Takes messages that an entry of the site sent, in the order of the entries."""
        for message in messages:
            for site in [json.loads(message)["token"][1]] if b'"token":' in message else self.others:
                self.out[site].append((entry, message))
                self.more[site].set()

    def unconfirmed(self) -> int:
        return sum(map(len, self.out.values()))

    def confirmed(self) -> int:
        """The entries, from the first on, all of whose messages the broker has."""
        return min([self.site.entries, *(lines[0][0] for lines in self.out.values() if lines)])

    async def run(self) -> None:
        """Goes from node to node of the broker, until one takes us, and to the next once the connection fails."""
        before = ""
        for url in itertools.cycle(self.urls):
            try:
                connection = await aio_pika.connect(url, timeout=PATIENCE)
                parts = [part(connection, site) for part in (self.publish, self.receive) for site in self.others]
                try:
                    self.is_connected = True
                    await together(1, self.talk(connection), *parts)
                finally:
                    self.is_connected = False
                    with contextlib.suppress(Exception):
                        await asyncio.wait_for(connection.close(), PATIENCE)
            except Exception as fault:
                if not is_fault(fault):
                    raise
                if (why := repr(fault)[:200]) != before:
                    logging.warning("%s: %s", url.rpartition("@")[2], why)
                before = why
            await asyncio.sleep(0.2)

    async def queue(self, channel: AbstractChannel, sender: int, receiver: int) -> AbstractQueue:
        """The queue of a pair. Both ends make it, so nothing is published if there is none."""
        return await channel.declare_queue(
            f"{self.period.name}.{sender}.{receiver}", durable=True, timeout=PATIENCE,
            arguments={"x-queue-type": "quorum", "x-single-active-consumer": True})

    async def publish(self, connection: AbstractConnection, site: int) -> None:
        """Publishes what waits for a site, in order: the next part once the broker has confirmed the one before."""
        channel, lines = await connection.channel(on_return_raises=True), self.out[site]
        queue = await self.queue(channel, self.site.me, site)
        while True:
            while part := [line for _, line in lines[:MOST_LINES]]:
                message = aio_pika.Message(b"\n".join(part), delivery_mode=aio_pika.DeliveryMode.PERSISTENT)
                await channel.default_exchange.publish(message, queue.name, timeout=PATIENCE)
                del lines[:len(part)]
                await asyncio.sleep(GATHER)
            self.more[site].clear()
            await self.more[site].wait()

    async def receive(self, connection: AbstractConnection, site: int) -> None:
        """Gives the site what another one sent, and acknowledges what it answered. The consumer isn't cancelled, but it
        ends with its channel: else the next one would be given later messages before those that are in hand here. A
        node's death may end a consumer without a word, so after a silence there is another one."""
        while True:
            channel, came = await connection.channel(), asyncio.Queue()  # type: Any, asyncio.Queue[Any]
            await channel.queue_delete(f"{self.period.other(-1).name}.{site}.{self.site.me}", timeout=PATIENCE)
            await channel.set_qos(prefetch_count=PREFETCH, timeout=PATIENCE)
            await (await self.queue(channel, site, self.site.me)).consume(came.put, timeout=PATIENCE)
            with contextlib.suppress(asyncio.TimeoutError):
                while True:
                    delivery = await asyncio.wait_for(came.get(), SILENCE)
                    await self.take(delivery.body)
                    await delivery.ack()
            await channel.close()

    def given(self, line: bytes) -> asyncio.Future[Json]:
        """Gives the site a message as it came. Anything else that somebody put into the queue is an event that the site
        doesn't take."""
        with contextlib.suppress(AttributeError, ValueError, RecursionError):
            event: Json = json.loads(line)
            if event.keys() - {"bank"} in ({"shadow"}, {"token"}):
                return self.site.ask(event, line.decode())
        return self.site.ask({})

    async def take(self, body: bytes) -> None:
        """Has the site answer each message of a delivery. One that finds no place is given again, until it does: it may
        once more is applied. Were the queue's order ever disturbed, what it waits for could be behind it: so after a
        long time a new session is tried."""
        view = self.site.view
        asked, seen = [(line, self.given(line)) for line in body.split(b"\n")], view.clock.total()
        for line, future in asked:
            while (answer := await asyncio.shield(future)).get("reply", {}).get("refused") in FULL:
                if not await until(lambda: view.clock.total() != seen, LONG):
                    raise ConnectionError(f"nothing was applied for {LONG} s, and a queue waits")
                seen, future = view.clock.total(), self.given(line)
            if "refused" in answer.get("reply", {"refused"}):
                logging.error("the site doesn't take %r: %s", line[:500], compact(answer)[:200])
            if answer.get("reply", {}).get("refused") == ANOTHER:
                shadow = json.loads(line)["shadow"]
                self.desk.others.setdefault(shadow["home"], shadow["name"])

    async def talk(self, connection: AbstractConnection) -> None:
        """Says again and again where this service is, hears the others, and writes down what is confirmed."""
        channel = await connection.channel()
        exchange = await channel.declare_exchange(f"{self.period.name}.services", aio_pika.ExchangeType.FANOUT,
                                                  auto_delete=True, timeout=PATIENCE)
        queue = await channel.declare_queue(exclusive=True, timeout=PATIENCE)
        await queue.bind(exchange, timeout=PATIENCE)
        await queue.consume(self.desk.hears, no_ack=True, timeout=PATIENCE)
        while True:
            said = aio_pika.Message(compact(self.desk.says()).encode())
            await exchange.publish(said, "", mandatory=False, timeout=PATIENCE)
            with contextlib.suppress(OSError):  # (the disk is full, and the file may be old)
                self.period.keep("confirmed", self.confirmed(), lasting=False)
            await asyncio.sleep(SAY)
