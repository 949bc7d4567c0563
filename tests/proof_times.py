#!/usr/bin/env python3
"""Says which functions and lemma files of a crate took longest to prove.

usage: proof_times.py [--most N] [--size] CRATE..      (N: how many of each crate, 12 if it isn't given)

It reads the times at which `rt check --jobs 1` wrote what it keeps in crates/CRATE/out/incremental, so it speaks of
the last check that proved the crate from nothing with one job (remove crates/CRATE/out before it). Another check of
the same crate in between, or other work on the machine, makes the numbers wrong: they are seconds by the clock.

With --size it says how many 1,000,000 bytes were kept for each, in place of seconds. That is the same on each machine,
whatever else runs there, and follows the time but for what is searched: a search leaves little behind.
"""
import os
import re
import sys

TOP = os.path.dirname(os.path.dirname(os.path.abspath(__file__)))
# What the prover makes of one function is in several modules, whose last names are these.
PARTS = ("Answers Carried Code Goals Invariants Key Kinds Layout Lts Met Proof Reads Statement Tie TheImpl TheLaws "
         "TheLink").split()
PART = re.compile(r"\.(" + "|".join(PARTS) + r")\b.*")


def kept(crate):
    """The modules that a check kept: when each was written, its name and its size, in the order of the times."""
    found = []
    for at, _folders, names in os.walk(os.path.join(TOP, "crates", crate, "out", "incremental")):
        for name in names:
            if name.endswith(".oantt"):
                seen = os.stat(os.path.join(at, name))
                found.append((seen.st_mtime, name.removesuffix(".oantt"), seen.st_size))
    return sorted(found)


def added_up(modules, amounts):
    """The amounts of the modules, added up for each function or lemma file."""
    sums = {}
    for (_, name, _), amount in zip(modules, amounts):
        of = PART.sub("", name.removeprefix("Rattle-"))
        sums[of] = sums.get(of, 0.0) + amount
    return sums


def seconds_of(modules):
    """The seconds between each module and the one before it."""
    return added_up(modules[1:], [then[0] - before[0] for before, then in zip(modules, modules[1:])])


def sizes_of(modules):
    """The size of each module, in 1,000,000 bytes."""
    return added_up(modules, [size / 1e6 for _, _, size in modules])


def main(words):
    most, amounts, unit = 12, seconds_of, "s"
    if words[:1] == ["--most"]:
        most, words = int(words[1]), words[2:]
    if words[:1] == ["--size"]:
        amounts, unit, words = sizes_of, "MB", words[1:]
    if not words or words[0] in ("-h", "--help"):
        print(__doc__.strip())
        return 0 if words else 2
    for crate in words:
        modules = kept(crate)
        if not modules:
            print(f"{crate}: no check has kept anything: run rt check --jobs 1 in crates/{crate}", file=sys.stderr)
            return 1
        found = amounts(modules)
        print(f"{crate}: {sum(found.values()):.0f} {unit}")
        for name, amount in sorted(found.items(), key=lambda it: -it[1])[:most]:
            print(f"{amount:8.1f} {unit}  {name}")
    return 0


if __name__ == "__main__":
    sys.exit(main(sys.argv[1:]))
