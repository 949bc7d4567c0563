#!/usr/bin/env python3
"""Shows a script's commands beside the replies of `rbbank script`, or what `rbbank audit` finds in histories.

Without a file it shows the stored run. It says which program ran: the proved one, a built one, or
`rt try`, which proves nothing and builds for about a minute. The replies are compared with those that are stored.
"""
import argparse
import os
import shutil
import sys

import bank
import draw
import explain
import world

STORED = bank.example("deposit_reaches_the_other_site.jsonl")


def options():
    reader = argparse.ArgumentParser(description=__doc__, formatter_class=argparse.RawDescriptionHelpFormatter)
    file = "a script or histories; - is standard input"
    reader.add_argument("file", metavar="FILE", nargs="?", default=STORED, help=file)
    reader.add_argument("--draw", action="store_true", help="draw the run first, as draw.py does")
    reader.add_argument("--program", metavar="PATH", help=bank.WHICH)
    return reader.parse_args()


def drawn(found):
    """The drawing's lines."""
    columns = shutil.get_terminal_size((80, 24)).columns
    yield from draw.Terminal(draw.Drawing(found), columns, sys.stdout.isatty()).rows()
    yield ""


def beside(found, at):
    """What is beside a command that was read: its reply and what a refusal means, or that it is bad."""
    if at == len(found.steps):
        return "(bad line)"
    reply = found.steps[at].reply
    return bank.compact(reply) + (f"  {bank.refusal(reply, whole=True)}" if "refused" in reply else "")


def table(found, data):
    """The commands that were read, each beside its reply."""
    lines = [(line, text.decode("utf-8", "replace").strip()) for line, text in world.lines_of(data)]
    yield f"configuration: {lines[0][1] if lines else '(none)'}"
    yield ""
    read = [text for at, (line, text) in enumerate(lines[1:]) if at < len(found.steps) or line == found.bad_line]
    if read:
        width = max(len("command"), *(min(len(text), 96) for text in read))
        yield f"{'command':{width}}   reply"
        yield from (f"{text:{width}}   {beside(found, at)}" for at, text in enumerate(read))
        yield ""


def compared(path, written):
    """What to say of the replies that are stored beside a file."""
    stored = path.removesuffix(".jsonl") + ".expected"
    if not path.endswith(".jsonl") or not os.path.exists(stored):
        return "No replies are stored beside it."
    same = bank.read(stored).decode() == written
    return "The replies are those that are stored." if same else f"NOT the replies of {stored}"


def of_script(found, data, path):
    yield from table(found, data)
    if found.error:
        yield found.error
    yield compared(path, "".join(bank.compact(step.reply) + "\n" for step in found.steps))


def of_histories(found, data, path):
    yield from explain.of_histories(found, data)
    if found.verdict:
        yield f"\nThe audit's answer: {bank.compact(found.verdict)}"
        yield compared(path, bank.compact(found.verdict) + "\n")


def main():
    asked = options()
    if bank.word_of(asked.file) == "site":
        raise bank.Stop(f"{asked.file}: the lines of a site, with a journal; explain.py answers them over a new one")
    data = bank.read(asked.file)
    program = bank.program(asked.program)
    found = world.world_of(program, data)
    print(f"{os.path.basename(asked.file)}, answered by {program.what}:\n")
    for line in drawn(found) if asked.draw and found.steps else []:
        print(line.rstrip())
    for line in (of_histories if found.is_histories else of_script)(found, data, asked.file):
        print(line)
    return explain.status_of(found)


if __name__ == "__main__":
    bank.stops_in_words("demo", main)
