#!/usr/bin/env python3
"""Pays what a file lists, by a bank's service, each line once: if it is ended in the middle, run it again.

usage: pay.py URL ACCOUNT FILE [TOKEN]    each line of FILE is `NAME CENTS`; ACCOUNT pays

The key of a payment is the file's name and its line, so another run with the same file pays nothing twice.
"""
import os
import sys

sys.path.insert(0, os.path.join(os.path.dirname(os.path.abspath(__file__)), "..", "service"))
from client import Client  # noqa: E402


def main() -> int:
    if len(sys.argv) not in (4, 5):
        sys.exit(__doc__)
    url, account, path = sys.argv[1:4]
    bank, status = Client(url, token=sys.argv[4] if sys.argv[4:] else None), 0
    with open(path, encoding="utf-8") as file:
        for number, (name, cents) in enumerate(map(str.split, file), 1):
            reply = bank.ask({"transfer": [account, name, int(cents)]}, key=f"{os.path.basename(path)}-{number}")
            is_paid = reply.get("kind") == "transfer"
            print(name, cents, "paid" if is_paid else reply.get("error") or reply["kind"], reply.get("name", ""))
            status |= not is_paid
    return status


if __name__ == "__main__":
    sys.exit(main())
