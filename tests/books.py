"""The end of a period, for crash.py: examples/tools/close.py closes the books, is ended at random moments, and is run
again until it has done all of it. What it left is compared with what the sites' clients were answered.
"""
from __future__ import annotations

import json
import os
import signal
import subprocess
import sys
import time
from typing import TYPE_CHECKING, Any

from site_process import Failed, Site, compact, read, whole_lines, without_bank, without_notes

if TYPE_CHECKING:
    from crash import Bank

ROOT = os.path.dirname(os.path.dirname(os.path.abspath(__file__)))
CLOSE = os.path.join(ROOT, "examples", "tools", "close.py")
ENDED = 0.5  # of the runs of close.py, how many are ended
MOMENTS = [0.2, 0.6, 2.0]  # the most seconds after which they are
MOST_SITES = 8  # beyond which version 1 has no bank


def close(bank: Bank, account: str) -> dict[str, Any]:
    """Closes a bank's books, with this account and a site added. The next configuration."""
    bank.answer_all()
    for site in bank.all:
        site.close()
    if bank.period == 1:
        with open(bank.file("bank"), "w", encoding="utf-8") as file:
            file.write(bank.config + "\n")
    sites = min(bank.sites + 1, MOST_SITES)
    following = os.path.join(bank.folder, f"{bank.period + 1:04}.bank")
    run_until_done(bank, ["--account", account, "--sites", str(sites)], following)
    for site in bank.all:
        look_at_sealed(bank, site)
    accounts = [list(each) for each in bank.clients.balances().items()] + [[account, 0]]
    wanted = json.loads(bank.written) | {"accounts": accounts, "sites": sites}
    if read(following).decode() != compact(wanted) + "\n":
        raise Failed(f"{following} has to be {compact(wanted)}")
    return wanted


def run_until_done(bank: Bank, words: list[str], following: str) -> None:
    """Runs close.py, at times with an end by SIGKILL, until the next period's first line is there."""
    words = [sys.executable, CLOSE, bank.folder, "--program", bank.program, *words]
    while not os.path.exists(following):
        run = subprocess.Popen(words, stdout=subprocess.PIPE, stderr=subprocess.PIPE, start_new_session=True,
                               env=os.environ | {"TMPDIR": temporary(bank)})
        if bank.pick.random() < ENDED and bank.count["closing"] < 2 * bank.period:
            time.sleep(bank.pick.random() * bank.pick.choice(MOMENTS))
            os.killpg(run.pid, signal.SIGKILL)
            bank.count["closing"] += 1
            run.communicate()
            continue
        out, errors = run.communicate()
        # A run that was ended may have left a torn journal.
        if run.returncode != 0 or without_notes(errors.decode()):
            raise Failed(f"close.py ended in {run.returncode}: {out.decode()}{errors.decode()}")
    refused = subprocess.run(words, capture_output=True)
    if refused.returncode != 1 or b" isn't begun: " not in refused.stderr:
        raise Failed(f"close.py closed a period that hasn't begun: {refused}")


def temporary(bank: Bank) -> str:
    """A folder for temporary files, since what is ended leaves its own."""
    path = bank.file("tmp")
    os.makedirs(path, exist_ok=True)
    return path


def look_at_sealed(bank: Bank, site: Site) -> None:
    """The journal is sealed. It has what it had, and behind that what the other sites sent and it applied; and no site
    starts on it."""
    data = read(site.journal)
    lines = whole_lines(data)
    config, *found = lines.decode().split("\n")[:-1]
    if data != lines + b"\t" or config != bank.written or found[:len(site.entries)] != site.entries:
        raise Failed(f"{site.journal} isn't sealed, or lost something")
    sent = [without_bank(message) for other in bank.all for message in other.sent.values()]
    for line in map(json.loads, found[len(site.entries):]):
        if line["event"] not in sent and "apply" not in line["event"]:
            raise Failed(f"{site.journal} has what was never sent: {compact(line)}")
    site.entries = found
    words = [bank.program, "site", "--me", str(site.number), "--journal", site.journal]
    run = subprocess.run(words, input=bank.config.encode() + b"\n", capture_output=True)
    ended = run.stdout, run.stderr, run.returncode
    if ended != (b"", b"rbbank: journal is sealed\n", 2) or read(site.journal) != data:
        raise Failed(f"a site started on the sealed journal {site.journal}: {ended}")
