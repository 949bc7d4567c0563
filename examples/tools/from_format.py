#!/usr/bin/env python3
"""Makes the manual pages rbbank(5), rbbank-running(7) and rbbank-periods(7) from pages of docs/.

usage: from_format.py PREFIX     writes them below PREFIX: share/man

It reads the Markdown that the page is written in: headings, paragraphs, tables, lines that are indented as they are,
`code`, *words* and **what matters**. A row of a table becomes a paragraph: its first cell, and the others below it,
each behind the name of its column if there are several or it is a number. A table of two halves that have the same
columns is read half by half. A page that is named here has the name of its manual page.
"""
import os
import re
import sys

import bank

PAGES = {"docs/FORMAT.md": ("rbbank", 5), "docs/RUNNING.md": ("rbbank-running", 7),
         "docs/PERIODS.md": ("rbbank-periods", 7)}
# in brackets: a file that only the sources have
ELSEWHERE = re.compile(r"\(([\w/]+\.(?:md|py))\)")
PIECE = re.compile(r"`([^`]+)`|\*\*?([^*]+)\*\*?")
CELLS = re.compile(r"(?<!\\)\|")


def roff(text):
    """A text as roff shows it."""
    text = text.replace("\\", "\\e").replace("-", "\\-").replace("'", "\\(aq").replace("^", "\\(ha")
    return "\\&" + text if text.startswith(".") else text


def installed(text):
    """A text with the names that are there once it is installed."""
    for page, (name, section) in PAGES.items():
        text = text.replace(page, f"{name}({section})")
    return ELSEWHERE.sub(r"(in the sources \1)", text)


def code(text):
    """Code in bold. It may go on in the next line behind a comma, as a text does behind a space."""
    return "\\fB" + roff(text).replace(",", ",\\:").removeprefix("\\&") + "\\fR"


def inline(text):
    """A text with its code and what matters."""
    found, at = [], 0
    for piece in PIECE.finditer(text):
        shown = code(piece[1]) if piece[1] else f"\\fI{roff(piece[2])}\\fR"
        found += [roff(text[at:piece.start()]).removeprefix("\\&"), shown]
        at = piece.end()
    line = "".join([*found, roff(text[at:]).removeprefix("\\&")])
    return "\\&" + line if line.startswith(".") else line


def cells(line):
    split = CELLS.split(line.strip().removeprefix("|").removesuffix("|"))
    return [cell.strip().replace("\\|", "|") for cell in split]


def table(lines):
    """The paragraphs of a table."""
    names, _, *rows = map(cells, lines)
    half = len(names) // 2
    if len(names) % 2 == 0 and half > 1 and names[:half] == names[half:]:
        names, rows = names[:half], [row[:half] for row in rows] + [row[half:] for row in rows]
    for first, *others in rows:
        if not first:
            continue
        yield from [".TP", inline(first)]
        for name, cell in zip(names[1:], others):
            if cell:
                named = len(names) > 2 or cell.isdigit()
                yield f"\\fI{inline(name)}:\\fR {inline(cell)}" if named else inline(cell)
                yield ".br"


def block(lines):
    """What is made of lines between two blank ones."""
    first = lines[0]
    if first.startswith("#"):
        marks, _, title = first.partition(" ")
        return [f".SH {roff(title.upper())}" if marks == "##" else f".SS {roff(title)}"]
    if first.startswith("|"):
        found = list(table(lines))
        return found[:-1] if found[-1] == ".br" else found
    if first.startswith("    "):
        return [".PP", ".nf", ".RS 4", *(code(line[4:]) for line in lines), ".RE", ".fi"]
    return [".PP", inline(" ".join(lines))]


def page(path, text):
    """The manual page of a page of docs/, whose first line is its title."""
    title, *blocks = [block.split("\n") for block in installed(text).strip("\n").split("\n\n")]
    if len(title) != 1 or not title[0].startswith("# "):
        raise bank.Stop(f"{path}: the first line is no title")
    name, section = PAGES[path]
    others = [("rbbank", 1), *(other for other in PAGES.values() if other != (name, section))]
    lines = [f'.\\" Made by examples/tools/from_format.py from {path}.', f".TH {name.upper()} {section}", ".nh",
             ".ad l", ".SH NAME", f"{name} \\- {roff(title[0][2:].lower())}", ".SH DESCRIPTION"]
    for each in blocks:
        lines += block(each)
    return "\n".join([*lines, ".SH SEE ALSO", ", ".join(f"\\fB{roff(name)}\\fR({n})" for name, n in others)]) + "\n"


def write(prefix):
    for path, (name, section) in PAGES.items():
        folder = os.path.join(prefix, "share", "man", f"man{section}")
        os.makedirs(folder, exist_ok=True)
        text = page(path, bank.read(os.path.join(bank.ROOT, path)).decode())
        bank.write(os.path.join(folder, f"{name}.{section}"), text)


def main(words):
    if words in (["-h"], ["--help"]):
        print(__doc__.strip())
        return 0
    if len(words) != 1 or words[0].startswith("-"):
        print(__doc__.strip(), file=sys.stderr)
        return 2
    try:
        write(words[0])
    except OSError as error:
        raise bank.Stop(f"{error.filename}: {error.strerror}") from None
    return 0


if __name__ == "__main__":
    bank.stops_in_words("from_format", lambda: main(sys.argv[1:]))
