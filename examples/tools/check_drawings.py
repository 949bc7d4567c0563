#!/usr/bin/env python3
"""Draws and explains the examples anew, through a built program, and compares them with what is stored.

usage: check_drawings.py [--quiet | --write] PROGRAM

Stored are drawings.txt (draw.py in 80 columns), explanations.txt (explain.py) and the pictures
docs/pictures/NAME.svg, each of the example of its name. The scripts' own words are tried as well: --help, a missing
file, a range, sites, and the audit of a script.
--quiet prints only what is different; --write stores what is drawn in place of comparing.
"""
import glob
import os
import re
import subprocess
import sys

import bank
import draw
import explain
import picture

PICTURES = os.path.join(bank.ROOT, "docs", "pictures")
SCRIPTS = ["draw.py", "explain.py", "demo.py", "bank.py", "check.py", "check_drawings.py", "wire.py"]


def examples():
    """The scripts and histories, but for the long run of tellers."""
    for path in bank.examples():
        name = os.path.basename(path).removesuffix(".jsonl")
        if not name.endswith((".migration", ".site")) and not name.startswith("tellers"):
            yield name, bank.read(path)


def drawn(program, data):
    """A file's drawing in 80 columns, or why there is none."""
    try:
        rows = draw.Terminal(draw.drawing_of(program, data), 80, False).rows()
        return "\n".join(row.rstrip() for row in rows)
    except bank.Stop as why:
        return str(why)


def drawings(program):
    return "\n\n".join(f"[{name}]\n{drawn(program, data)}" for name, data in examples()) + "\n"


def explanations(program):
    def explained(data):
        return "\n".join(explain.explained(program, data)[0])
    return "\n\n".join(f"[{name}]\n{explained(data)}" for name, data in examples()) + "\n"


def pictures():
    """The pictures that are stored, and those that the pages show."""
    names = {os.path.basename(path).removesuffix(".svg") for path in glob.glob(os.path.join(PICTURES, "*.svg"))}
    for page in ("README.md", os.path.join("docs", "TUTORIAL.md")):
        names.update(re.findall(r"pictures/([\w.]+)\.svg", bank.read(os.path.join(bank.ROOT, page)).decode()))
    return sorted(names)


def stored(program):
    """Each stored file, with what it has to be."""
    yield os.path.join(bank.EXAMPLES, "drawings.txt"), drawings(program)
    yield os.path.join(bank.EXAMPLES, "explanations.txt"), explanations(program)
    for name in pictures():
        data = bank.read(bank.example(name + ".jsonl"))
        yield os.path.join(PICTURES, name + ".svg"), picture.svg(draw.drawing_of(program, data))


def run_of(program, words, given=b""):
    """A script's output, its first line on standard error, and its status."""
    script = [sys.executable, os.path.join(bank.HERE, words[0])]
    run = subprocess.run([*script, *words[1:]], input=given, capture_output=True)
    return run.stdout.decode(), run.stderr.decode().split("\n")[0], run.returncode


def words(program):
    """Whether the scripts' words do what they say."""
    path = bank.example("stale_token.jsonl")
    asked = ["--program", program]
    for script in SCRIPTS:
        out, err, status = run_of(program, [script, "--help"])
        yield f"{script} --help", "usage: " in out and err == "" and status == 0
    for script in ["draw.py", "explain.py", "demo.py"]:
        missing = script.removesuffix(".py") + ": no/such/file: No such file or directory"
        yield f"{script} of a missing file", run_of(program, [script, "no/such/file", *asked]) == ("", missing, 1)
    out, err, status = run_of(program, ["draw.py", path, *asked, "--from", "6", "--to", "8", "--site", "1"])
    shown = [line[:2].strip() for line in out.split("\n") if line[:2].strip()]
    yield "draw.py --from --to --site", status == 0 and "message 1 from site 0" in out and shown == ["6", "7", "8"]
    out, err, status = run_of(program, ["draw.py", path, *asked, "--site", "2"])
    yield "draw.py --site of none", (out, err, status) == ("", "draw: --site wants sites 0 to 1", 1)
    out, err, status = run_of(program, ["draw.py", "-", *asked, "--color", "always"], bank.read(path))
    yield "draw.py --color", status == 0 and "\x1b[31m●" in out
    out, err, status = run_of(program, ["explain.py", path, *asked, "--as", "audit"])
    yield "explain.py --as audit", status == 2 and "this is a command, and a history has entries" in out
    config = bank.read(path).split(b"\n")[0] + b"\n"
    out, err, status = run_of(program, ["explain.py", "-", *asked], config)
    yield "explain.py of a configuration alone", (err, status) == ("", 0) and out.endswith("No command.\n")
    out, err, status = run_of(program, ["explain.py", bank.example("site_receives.site.jsonl"), *asked, "--as", "site",
                                        "--me", "1"])
    yield "explain.py --as site", (err, status) == ("", 0) and out.split("\n")[0].endswith("then B0.1: applied")
    line = b'{"balance":"ann"}\n{"balence":"ann"}\n'
    out, err, status = run_of(program, ["explain.py", "-", *asked, "--as", "site", "--me", "1"], config + line)
    yield "explain.py of a site's bad line", status == 0 and (
        out.startswith("line 2  site 1: the balance of") and 'did you mean "balance"?' in out)
    missing = ("", "draw: no/such/file: No such file or directory", 1)
    yield "draw.py to a missing folder", run_of(program, ["draw.py", path, *asked, "--svg", "no/such/file"]) == missing
    out, err, status = run_of(program, ["draw.py", path, *asked, "--from", "99"])
    yield "draw.py --from past the end", (out, status) == ("", 1) and "the last line that did something is" in err
    yield "draw.py of a long run", all(row.width <= picture.ROW for row in picture.rows_of(
        draw.drawing_of(bank.program(program), bank.read(bank.example("tellers.histories.jsonl")))))
    of_sites = [bank.example(f"site_{it}.site.jsonl").replace("jsonl", "journal") for it in ("deposit", "receives")]
    for script, shown in (("draw.py", "▶○ B0.1 held"), ("explain.py", "One world has these histories: 5 entries")):
        yield f"{script} of journals", shown in run_of(program, [script, *asked, *of_sites])[0]
    other = f"draw: {path}: another bank's journal than {of_sites[0]}"
    yield "draw.py of two banks' journals", run_of(program, ["draw.py", *asked, of_sites[0], path]) == ("", other, 1)
    changed = bank.example("changed_reply.histories.jsonl")
    out, err, status = run_of(program, ["demo.py", changed, *asked, "--draw"])
    yield "demo.py of histories", status == 1 and "The replies are those that are stored." in out


def main():
    options = [word for word in sys.argv[1:] if word.startswith("-")]
    paths = [word for word in sys.argv[1:] if not word.startswith("-")]
    if len(paths) != 1 or options not in ([], ["--quiet"], ["--write"]):
        print(__doc__)
        return 0 if options in (["--help"], ["-h"]) else 2
    program, results = bank.program(paths[0]), []
    for path, wanted in stored(program):
        if options == ["--write"]:
            with open(path, "w", encoding="utf-8") as file:
                file.write(wanted)
        same = os.path.exists(path) and bank.read(path).decode() == wanted
        results.append((os.path.relpath(path, bank.ROOT), same))
    results += words(os.path.abspath(paths[0]))
    for name, same in results:
        if not same or options != ["--quiet"]:
            print(f"{'same' if same else 'DIFFERENT'}  {name}")
    return 0 if all(same for _, same in results) else 1


if __name__ == "__main__":
    bank.stops_in_words("check_drawings", main)
