"""A short way for what is asked most: a plain `POST /events` is taken apart here. aiohttp, which takes several times as
long, gets anything else, and the rest of its connection.

What is answered here is answered as it would be there, by the same functions. A request with a header that may change
what the others mean, of a page, or of a client who is to be sent away isn't plain.
"""
from __future__ import annotations

import asyncio
import json
import re
from collections.abc import Callable
from typing import Any

from aiohttp.helpers import rfc822_formatted_time
from aiohttp.web_protocol import RequestHandler

PLAIN = re.compile(rb"POST /events HTTP/1\.1\r\n((?:[\w-]+: [ -~]*\r\n)+)\r\n")
HEAD = re.compile(rb"([\w-]+): *([ -~]*?) *\r\n")
ODD = {b"connection", b"content-encoding", b"expect", b"origin", b"trailer", b"transfer-encoding", b"upgrade"}
MOST = 1 << 20  # bytes of a request, or of those that wait after it
REASONS = {200: "OK", 400: "Bad Request", 403: "Forbidden", 404: "Not Found", 409: "Conflict",
           422: "Unprocessable Entity", 503: "Service Unavailable"}
Says = tuple[int, Any]  # a status, and what is said
Begin = Callable[[dict[bytes, bytes], bytes], "asyncio.Future[Says] | None"]


class Front(RequestHandler):
    """A connection. It has one request under way, and the bytes that came after it."""
    __slots__ = ("begin", "came", "is_busy", "is_theirs")

    def __init__(self, begin: Begin, *words: Any, **more: Any) -> None:
        super().__init__(*words, **more)
        self.begin, self.came, self.is_busy, self.is_theirs = begin, b"", False, False

    def data_received(self, data: bytes) -> None:
        if self.is_theirs:
            return super().data_received(data)
        self.came += data
        if not self.is_busy:
            self.next()
        elif len(self.came) > MOST:
            self.force_close()
        return None

    def next(self) -> None:
        """Begins to answer the request that came, once it is whole, unless it isn't plain."""
        if plain := PLAIN.match(self.came):
            pairs, start = HEAD.findall(plain[1]), plain.end()
            heads = {name.lower(): value for name, value in pairs}
            length = heads.get(b"content-length", b"")
            if len(heads) == len(pairs) and ODD.isdisjoint(heads) and length.isdigit() and len(length) < 8:
                end = start + int(length)
                if len(self.came) < end < MOST:
                    return
                if end < MOST and (future := self.begin(heads, self.came[start:end])):
                    self.came, self.is_busy = self.came[end:], True
                    return future.add_done_callback(self.answer)
        came, self.came, self.is_theirs = self.came, b"", True
        return super().data_received(came)

    def answer(self, future: asyncio.Future[Says]) -> None:
        status, said = future.result()
        body = json.dumps(said).encode()
        wait = "Retry-After: 1\r\n" if status == 503 else ""
        head = (f"HTTP/1.1 {status} {REASONS[status]}\r\nContent-Type: application/json; charset=utf-8\r\n{wait}"
                f"Content-Length: {len(body)}\r\nDate: {rfc822_formatted_time()}\r\n\r\n")
        self.is_busy = False
        if self.transport is None or self.transport.is_closing():
            return
        self.transport.write(head.encode() + body)
        if self.transport.get_write_buffer_size() > MOST:  # it asks, and reads nothing
            self.force_close()
        elif self.came:
            self.next()
