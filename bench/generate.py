#!/usr/bin/env python3
"""Writes a script for `rbbank script`, or histories for `rbbank audit` and `rbbank migrate`: a configuration
line and a given number of lines, the same for the same seed.

README.md says what each kind is.
"""
import argparse
import json
import sys

sys.dont_write_bytecode = True
import histories
import kinds
import mix
from limits import LIMITS, version_of

MIXED = {"mix": mix.mix, "histories": histories.histories, "migrations": histories.histories}
# The same commands at a bank of this number of sites, in version 2 of the lines.
AT_SITES = {f"{kind}-{sites}": (kind, sites) for kind in ("cycle", "mix", "histories") for sites in (2, 8, 16)}
KINDS = MIXED | kinds.LONG | kinds.SHORTEST | AT_SITES


def lines(kind, commands, seed=1, **of_mix):
    """The lines of an input. The options of the mix may be given for what is mixed alone."""
    kind, bank = AT_SITES.get(kind, (kind, None))
    sites = of_mix.get("sites", 3 if kind in MIXED and bank is None else 2)
    version = version_of(sites) if bank is None else 2
    if kind in MIXED:
        of_mix["sites"] = sites
    if KINDS[kind] is histories.histories:
        of_mix["version"] = version
    script = KINDS[kind](seed, commands, **of_mix)
    yield json.dumps({"accounts": next(script), "sites": bank or sites, "version": version}, separators=(",", ":"))
    yield from script


def write(out, *given, **more):
    """Writes an input to a text file that is open."""
    out.writelines(line + "\n" for line in lines(*given, **more))


def options():
    words = argparse.ArgumentParser(description=__doc__)
    words.add_argument("--kind", choices=KINDS, default="mix")
    words.add_argument("--commands", type=int, default=1000)
    words.add_argument("--seed", type=int, default=1)
    of_mix = words.add_argument_group(f"for {', '.join(MIXED)}", argument_default=argparse.SUPPRESS)
    of_mix.add_argument("--sites", type=int, choices=range(2, LIMITS["MOST_SITES"] + 1), help="else 3")
    of_mix.add_argument("--accounts", type=int, help=f"1 to {LIMITS['MOST_ACCOUNTS']}, else 10")
    of_mix.add_argument("--weights", help=f"of requests and questions, else {mix.DEFAULT_MIX}")
    of_mix.add_argument("--backlog", type=int, help="messages that may wait for a site before they come first, else 16")
    return words


def main():
    words = options()
    given = words.parse_args()
    more = {name: value for name, value in vars(given).items() if name not in ("kind", "commands", "seed")}
    if more and given.kind not in MIXED:
        words.error(f"--{' --'.join(more)}: for {', '.join(MIXED)} alone, and not for {given.kind}")
    if not 1 <= more.get("accounts", 1) <= LIMITS["MOST_ACCOUNTS"]:
        words.error(f"--accounts: 1 to {LIMITS['MOST_ACCOUNTS']}")
    try:
        write(sys.stdout, given.kind, given.commands, given.seed, **more)
    except ValueError as wrong:
        words.error(str(wrong))


if __name__ == "__main__":
    main()
