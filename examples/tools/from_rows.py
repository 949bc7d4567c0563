#!/usr/bin/env python3
"""Makes the table of worked rows that the tests run, from the scripts of examples/, each with its replies.

usage: from_rows.py [--check]

The source is each scripts/NAME.jsonl that is answered whole, with NAME.expected, and scripts/more.rows. Made is
crates/rb_tests/src/row_texts.rt. With --check nothing is written: it ends in 1 if that isn't what would be made.
tests/cases.py has the rows from here too, and what a site records of messages that no site sent
(histories/forged.rows).
"""
import glob
import os
import sys

EXAMPLES = os.path.dirname(os.path.dirname(os.path.abspath(__file__)))
SCRIPTS = os.path.join(EXAMPLES, "scripts")
MADE = os.path.join(os.path.dirname(EXAMPLES), "crates", "rb_tests", "src", "row_texts.rt")


def read(path):
    with open(path, encoding="utf-8") as text:
        return text.read()


def blocks(name):
    """The blocks of a file of examples/, each by its name, less the comment at the top."""
    comment, *parts = read(os.path.join(EXAMPLES, name)).split("\n\n")
    if not all(line.startswith("#") for line in comment.splitlines()):
        sys.exit(f"from_rows: {name} has no comment at the top")
    return dict(part.rstrip("\n").split("\n", 1) for part in parts)


def examples():
    """The names of the scripts that are answered whole."""
    stems = (os.path.basename(path).removesuffix(".jsonl") for path in glob.glob(os.path.join(SCRIPTS, "*.jsonl")))
    return sorted(stem for stem in stems if not os.path.exists(os.path.join(SCRIPTS, stem + ".status")))


def rows():
    """Each script with its replies, by its name."""
    known = {}
    for name in examples():
        stem = os.path.join(SCRIPTS, name)
        known[name] = (read(stem + ".jsonl"), read(stem + ".expected"))
    for name, lines in blocks("scripts/more.rows").items():
        script, replies = lines.split("\nreplies:\n")
        known[name] = (script + "\n", replies + "\n")
    return known


def forged():
    """The configuration and the entries of each run of messages that no site sent, by its name."""
    return {name: lines.split("\n") for name, lines in blocks("histories/forged.rows").items()}


def table():
    """The file of Rust with a text of each script's name, its lines and its replies, an empty line between them."""
    scripts = (f"{name}\n{script}replies:\n{replies}".rstrip("\n") for name, (script, replies) in rows().items())
    says = "The worked rows: each script's name, its lines, and its replies."
    whole = "\n\n".join(scripts)
    return f'//! Made by examples/tools/from_rows.py. {says}\n\npub const ROWS: &str = r#"{whole}"#;\n'


def main():
    if sys.argv[1:] not in ([], ["--check"]):
        sys.exit(__doc__)
    if read(MADE) == table():
        return
    if sys.argv[1:]:
        sys.exit(f"from_rows: {os.path.relpath(MADE)} isn't what from_rows.py makes")
    with open(MADE, "w", encoding="utf-8") as file:
        file.write(table())


if __name__ == "__main__":
    main()
