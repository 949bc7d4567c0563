"""A lost disk, for crash.py: a site's journal is made again from the others' by examples/tools/rebuild.py, once all
messages are delivered. Then it has just the messages that the lost one had, all sites start, and their balances agree.
"""
from __future__ import annotations

import os
import subprocess
import sys
from typing import TYPE_CHECKING

from site_process import Failed, Site, read, whole_lines

if TYPE_CHECKING:
    from crash import Bank

ROOT = os.path.dirname(os.path.dirname(os.path.abspath(__file__)))
REBUILD = os.path.join(ROOT, "examples", "tools", "rebuild.py")


def lose(bank: Bank) -> str:
    """Loses the journal of a site whose process has ended, as those of all others have. What happened, in words."""
    lost = bank.pick.choice([site for site in bank.all if site.sent] or bank.all)
    os.rename(lost.journal, lost.journal + ".lost")
    others = [site.journal for site in bank.all if site is not lost]
    before = [read(path) for path in others]
    run = subprocess.run([sys.executable, REBUILD, str(lost.number), "--to", lost.journal, "--program", bank.program,
                          *others], capture_output=True)
    if run.returncode != 0 or run.stderr or [read(path) for path in others] != before:
        raise Failed(f"rebuild.py ended in {run.returncode}: {run.stdout.decode()}{run.stderr.decode()}")
    site = Site(bank, lost.number)
    site.entries = whole_lines(read(site.journal)).decode().split("\n")[1:-1]
    bank.all[lost.number] = site
    bank.settle()
    if site.sent != lost.sent:
        differ = sorted(set(site.sent) ^ set(lost.sent)) or "others of these names"
        raise Failed(f"site {site.number} sends what the lost one didn't, or not all of it: {differ}")
    bank.compare()
    bank.audit()
    return (f"  Site {site.number} lost its disk. Made again, it sends the same {len(site.sent)} messages, and all "
            f"balances are as before.")
