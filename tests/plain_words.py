#!/usr/bin/env python3
"""Says which lines are too long, and which pages have sentences that are too long in the mean.

usage: plain_words.py              prints them, and the mean of each page
       plain_words.py --check      prints them alone, and ends in status 1 if there is one

A line has at most 120 columns: in pages, sources, scripts and the Makefile. A row of a table may be longer, in
docs/PROVED.md below 160, and what is indented in a page (commands, and lines that the program reads or writes), such a
line in a source, and an attribute, which `rt fmt` puts into one line. A line of a definition or a proof has at most
140.

A page's sentences are those of its paragraphs, of the items of its lists, and of the cells of its tables that have
eight words or more. They have at most 21 words in the mean, those of doc comments (Rattle and Rust), of comments in C
and of comments at definitions too. docs/MODEL.md isn't counted: it is made from the comments at definitions.
"""
import glob
import os
import re
import sys

ROOT = os.path.dirname(os.path.dirname(os.path.abspath(__file__)))
WIDTH = 120  # the most columns of a line
WIDTHS = {".antt": 140}  # of those of other files
ROWS = {"docs/PROVED.md": 159}  # those of a table's row, if it isn't free
LONGEST_MEAN = 21  # the most words that sentences may have in the mean
LONG_CELL = 8  # the words from which a cell of a table counts as sentences
# the lines of a page and of a source that may be longer, by their beginnings
FREE = {".md": r"\||    ", ".rt": r"#\[|\s*(?:\w+: )?(?:r#\")?\{ ?\""}
FOLDERS = ("bench", "bindings", "examples", "play", "service", "tests")
PAGES = ("*.md", "docs/*.md", *(f"{it}/**/*.md" for it in FOLDERS), "crates/*/*.md")
SOURCES = ("Makefile", "crates/*/src/**/*.rt", "crates/*/specs/**/*.antt", "crates/*/proofs/**/*.antt",
           *(f"{it}/**/*.{kind}" for it in FOLDERS for kind in ("py", "c", "h", "rs")),
           *(f"play/page/*.{kind}" for kind in ("html", "css", "js")))


def files(*patterns):
    """The files of these patterns, each with its text, but for what was built."""
    for pattern in patterns:
        for path in sorted(glob.glob(os.path.join(ROOT, pattern), recursive=True)):
            if not re.search("/(out|target)/", os.path.relpath(path, ROOT)):
                with open(path, encoding="utf-8") as text:
                    yield os.path.relpath(path, ROOT), text.read()


def own(text):
    """A page's own words, line by line: without what is quoted, headings, heads of tables and indented lines."""
    text = re.sub(r"`[^`]*`", "`x`", text)
    text = re.sub(r"(?m)^\|.*\n\|[-|]+$", "", text)
    return re.sub(r"(?m)^(?:    |#|!\[).*$", "", text)


def parts(text):
    """The paragraphs, items of lists and long cells of a page."""
    for block in re.split(r"\n\s*\n|\n(?=\||- |\d+\. )", own(text)):
        if block.startswith("|"):
            yield from (cell for cell in block.strip("|").split("|") if len(words(cell)) >= LONG_CELL)
        else:
            yield re.sub(r"^\s*(?:- |\d+\. |> )", "", block)


def words(text):
    """The words of a text, each with a letter or a digit in it."""
    return re.findall(r"\S*\w\S*", text)


def mean(text):
    """How many words the sentences of a page have in the mean."""
    sentences = [it for part in parts(text) for it in re.split(r"[.?!](?:\s|$)", part) if words(it)]
    return sum(len(words(it)) for it in sentences) / max(1, len(sentences))


def blocks(mark, text):
    """The comments of a text whose lines begin with a mark, each a paragraph."""
    found = re.findall(rf"(?m)(?:^[ \t]*(?:{mark}).*\n)+", text)
    return "\n\n".join(re.sub(rf"(?m)^[ \t]*(?:{mark}) ?|\*/", "", block).strip() for block in found)


def means():
    """Each page, and each kind of comments, with the mean length of its sentences."""
    found = [(path, mean(text)) for path, text in files(*PAGES) if path != "docs/MODEL.md"]
    for shown, mark, places in (("doc comments", "//[/!]", ["crates/*/src/**/*.rt"]),
                                ("definitions", "--", ["crates/*/specs/**/*.antt"]),
                                ("doc comments of Rust", "//[/!]", [f"{it}/**/*.rs" for it in FOLDERS]),
                                ("comments in C", r"/\*| \*", [f"{it}/**/*.[ch]" for it in FOLDERS])):
        found.append((shown, mean("\n\n".join(blocks(mark, text) for _, text in files(*places)))))
    return found


def too_long():
    """The lines that are too long, each with its place."""
    for path, text in files(*PAGES, *SOURCES):
        kind = os.path.splitext(path)[1]
        for number, line in enumerate(text.split("\n"), 1):
            row = ROWS.get(path) if line.startswith("|") else None
            most, free = row or WIDTHS.get(kind, WIDTH), None if row else FREE.get(kind)
            if len(line) > most and not (free and re.match(free, line)):
                yield f"{path}:{number}: {len(line)} columns, and a line has at most {most}"


def main():
    if sys.argv[1:] not in ([], ["--check"]):
        sys.exit(__doc__)
    found = means()
    if not sys.argv[1:]:
        print("\n".join(f"{path:48}{length:8.1f}" for path, length in found))
    wrong = [f"{path}: its sentences have {length:.1f} words in the mean, and may have {LONGEST_MEAN}"
             for path, length in found if length > LONGEST_MEAN]
    wrong += too_long()
    print("\n".join(wrong), end="\n" if wrong else "")
    sys.exit(1 if wrong and sys.argv[1:] else 0)


if __name__ == "__main__":
    main()
