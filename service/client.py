"""A client of a site's service, by Python's own modules alone.

    bank = Client("http://127.0.0.1:8000", token="..")
    bank.ask({"deposit": ["ann", 500]}, key="order-17")    # {"kind": "deposit", "name": "B0.1"}
    bank.get("/balance/ann")                               # {"balance": 500}

A request is asked by its key, or one that is made for the call, until it is answered: so it is made once, whatever ends
meanwhile. A call takes a connection of its own.
"""
from __future__ import annotations

import http.client
import json
import time
import urllib.parse
import uuid
from typing import Any

UNKEYED = {"balance", "statement", "asof", "pass"}  # what has no key: all but requests
AGAIN = (500, 502, 503, 504)  # statuses that say nothing of the event


class Denied(Exception):
    """What a service doesn't take from this client (400, 401, 403), or no path of it (404)."""


class Client:
    def __init__(self, url: str, token: str | None = None, patience: float = 60, timeout: float = 40,
                 pause: float = 0.1) -> None:
        """Seconds for a call to be answered, for each try, and before the next try, if no answer says when."""
        self.url, self.patience, self.timeout, self.pause = urllib.parse.urlsplit(url), patience, timeout, pause
        self.heads = {"Content-Type": "application/json"} | ({"Authorization": f"Bearer {token}"} if token else {})
        self.lost = self.waits = 0  # replies that were lost, and times that it was told to wait
        self.began = 0.0  # when the last try began

    def ask(self, event: Any, key: str | None = None) -> Any:
        """The reply to an event, done, declined or refused; or those to a list of events."""
        events = event if isinstance(event, list) else [event]
        if key is None and events and all("id" not in each and not UNKEYED & each.keys() for each in events):
            key = uuid.uuid4().hex
        is_safe = key is not None or all("id" in each or UNKEYED & each.keys() for each in events)
        return self.until("POST", "/events", json.dumps(event), {"Idempotency-Key": key} if key else {}, is_safe)

    def get(self, path: str) -> Any:
        return self.until("GET", path, None, {}, True)

    def until(self, method: str, path: str, body: str | None, heads: dict[str, str], is_safe: bool) -> Any:
        """What is answered, once it is; TimeoutError if it isn't within the client's patience."""
        begun = time.monotonic()
        while True:
            try:
                status, wait, said = self.once(method, path, body, heads)
                if status not in AGAIN:
                    break
                self.waits += 1
            except (OSError, http.client.HTTPException) as fault:
                if not is_safe:
                    raise
                wait, said = self.pause, repr(fault)
                self.lost += 1
            if time.monotonic() + wait > begun + self.patience:
                raise TimeoutError(f"{self.url.netloc} gave no answer in {self.patience} s: {said}")
            time.sleep(wait)
        if status in (400, 401, 403) or status == 404 and "refused" not in said:
            raise Denied(f"{status} {said}")
        return said

    def once(self, method: str, path: str, body: str | None, heads: dict[str, str]) -> tuple[int, float, Any]:
        """A try: the status, the seconds to wait before the next, and what is said."""
        self.began = time.monotonic()
        kind = http.client.HTTPSConnection if self.url.scheme == "https" else http.client.HTTPConnection
        connection = kind(str(self.url.hostname), self.url.port, timeout=self.timeout)
        try:
            connection.request(method, self.url.path + path, body, self.heads | heads)
            reply = connection.getresponse()
            text, is_json = reply.read(), reply.getheader("Content-Type", "").startswith("application/json")
            wait = float(reply.getheader("Retry-After", self.pause))
            return reply.status, wait, json.loads(text) if is_json else text.decode(errors="replace")
        finally:
            connection.close()
