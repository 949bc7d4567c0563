#!/usr/bin/env python3
"""Unpacks what `make dist` makes into a temporary folder, and runs what is there, from outside the repository.

usage: install.py [--quiet] PROGRAM      (--quiet prints only what is different)
       ARCHIVE=FILE install.py PROGRAM

Without ARCHIVE one is made of PROGRAM, without the library. The program and each tool run; a tool finds the installed
program and what the refusals mean; books are closed and a lost journal made again by the tools that are there; the
manual pages have no fault in the eyes of groff, if it is there; whatever help or a manual page names is there too; and
a program in C is built with the library, if the archive has it. All has one version. `make uninstall` leaves nothing of
what `make install` copied, and without the toolchain one line says so.
"""
from __future__ import annotations

import os
import re
import shutil
import subprocess
import sys
import tempfile
from collections.abc import Iterator

import report

ROOT = os.path.dirname(os.path.dirname(os.path.abspath(__file__)))
TOOLS = ("draw", "explain", "wire", "close", "rebuild")
PAGES = ("rbbank(1)", "rbbank(5)", "rbbank-running(7)", "rbbank-periods(7)")
NAMED = re.compile(r"(?:\bman (\d) |(?:\b|\\fB))(rbbank[a-z-]*)(?:(?:\\fR)?\((\d)\))?")
CONFIG = '{"accounts":[["ann",0]],"sites":2,"version":1}\n'
SCRIPT = CONFIG + '{"deposit":["bob",5],"site":0}\n'
BAD = CONFIG + '{"deposit":["ann"],"site":0}\n'
DEPOSIT = '{"deposit":["ann",500]}\n'
SHADOW = ('{"bank":"0001","shadow":{"account":"ann","amount":500,"deps":[[0,0,0,0,0,0,0,0],0],"home":0,'
          '"kind":"deposit","name":"B0.1"}}\n')
Results = Iterator[tuple[str, bool]]


def made(*words: str, **more: str) -> subprocess.CompletedProcess[str]:
    """What `make` does in the repository, with these variables in its environment."""
    make = [shutil.which("make") or "make", "-s", "--no-print-directory", "-C", ROOT]
    return subprocess.run([*make, *words], env=os.environ | more, capture_output=True, text=True)


class Installed:
    """What is unpacked of an archive below a folder, and an empty folder to run it in."""

    def __init__(self, program: str, archive: str | None) -> None:
        self.kept = tempfile.TemporaryDirectory()
        self.program, self.empty = f"PROGRAM={os.path.abspath(program)}", os.path.join(self.kept.name, "empty")
        os.mkdir(self.empty)
        if archive is None:
            run = made("dist", "PARTS=install", self.program, f"OUT={self.kept.name}")
            archive = run.stdout.strip()
            if run.returncode:
                sys.exit(f"install: {run.stderr}")
        shutil.unpack_archive(archive, self.kept.name)
        self.name = os.path.basename(archive).removesuffix(".tar.gz")
        self.prefix = os.path.join(self.kept.name, self.name)

    def path(self, *names: str) -> str:
        return os.path.join(self.prefix, *names)

    def ran(self, name: str, *words: str, given: str = "") -> tuple[str, str, int]:
        """What a program of the folder bin writes and says, and its status."""
        run = subprocess.run([self.path("bin", name), *words], input=given, capture_output=True, text=True,
                             cwd=self.empty, timeout=60)
        return run.stdout, run.stderr, run.returncode


def tools(there: Installed) -> Results:
    """Each tool runs, and finds the installed program and the format."""
    yield "script", there.ran("rbbank", "script", given=SCRIPT) == ('{"refused":1}\n', "", 0)
    out, errors, status = there.ran("rbbank-explain", "-", given=SCRIPT)
    yield "explain knows a refusal", "unknown account" in out and (errors, status) == ("", 0)
    out, errors, status = there.ran("rbbank-explain", "-", given=BAD)
    yield "... and a bad line", "^" in out and (errors, status) == ("", 2)
    out, errors, status = there.ran("rbbank-draw", "--columns", "80", "-", given=SCRIPT)
    yield "draw", "bob" in out and (errors, status) == ("", 0)
    line = '{"reply":{"balance":0},"sends":[],"then":[]}\n'
    found = there.ran("rbbank-wire", "--me", "0", "--sites", "2", "--to", "cat > sent{}", given=line)
    yield "wire", found == ('{"balance":0}\n', "", 0)
    for tool in TOOLS:
        out, errors, status = there.ran(f"rbbank-{tool}", "--help")
        yield f"{tool} --help", out.startswith(f"usage: rbbank-{tool} ") and (errors, status) == ("", 0)
        yield "... names no script", f"{tool}.py" not in out


def periods(there: Installed) -> Results:
    """The books of a period are closed, and a lost journal is made again, as rbbank-periods(7) says it."""
    folder = there.path("bank")
    os.mkdir(folder)
    with open(os.path.join(folder, "0001.bank"), "w", encoding="utf-8") as file:
        file.write(CONFIG)
    for site, event in enumerate((DEPOSIT, SHADOW)):
        journal = os.path.join(folder, f"0001.{site}.journal")
        found = there.ran("rbbank", "site", "--me", str(site), "--journal", journal, "--bank", "0001", "--new",
                          given=CONFIG + event)
        yield f"site {site}", found[1:] == ("", 0) and found[0].count("\n") == 1
    again = os.path.join(folder, "again")
    found = there.ran("rbbank-rebuild", "0", "--to", again, os.path.join(folder, "0001.1.journal"))
    yield "rebuild", found[1:] == ("", 0) and os.path.exists(again)
    out, errors, status = there.ran("rbbank-close", folder, "--account", "bob")
    yield "close", out.startswith("0001 is closed, with 500 cents.") and (errors, status) == ("", 0)


def path_of(there: Installed, name: str, section: str) -> str:
    return there.path("share", "man", f"man{section}", f"{name}.{section}")


def named(text: str) -> set[tuple[str, str]]:
    """The manual pages that a text names: their names and sections."""
    found = (match.groups() for match in NAMED.finditer(text.replace("\\-", "-")))
    return {(name, before or behind) for before, name, behind in found if before or behind}


def pages(there: Installed) -> Results:
    """The manual pages are right, and what help and they name is there."""
    texts = {}
    for page in PAGES:
        path = path_of(there, *page.rstrip(")").split("("))
        with open(path, encoding="utf-8") as file:
            texts[page] = file.read()
        yield f"{page} has no escape of a table", "\\e|" not in texts[page]
        if shutil.which("groff"):
            run = subprocess.run(["groff", "-man", "-ww", "-Tutf8", path], capture_output=True, text=True)
            yield f"groff on {page}", (run.stderr, run.returncode) == ("", 0)
    top = there.ran("rbbank", "--help")[0]
    commands = re.findall(r"^  ([a-z]+)  ", top.split("\nCommands:\n")[1].split("\n\n")[0], re.M)
    texts |= {"--help": top} | {f"{name} --help": there.ran("rbbank", name, "--help")[0] for name in commands[:-1]}
    yield "eight commands", len(commands) == 8 and commands[-1] == "help"
    for name, text in texts.items():
        found = named(text)
        are_there = [os.path.exists(path_of(there, *at)) for at in found]
        yield f"{name} names pages that are there", bool(found) and all(are_there)
        # in the sources there is more, and is said to be there
        elsewhere = re.sub(r"\(in\s+the\s+sources\s[^)]*\)", "", text).split("\n.TH", 1)[-1]
        yield "... and no file that isn't", not re.search(r"\w+\.(?:md|py)\b", elsewhere)


def examples(there: Installed) -> Results:
    """Each command of a script that help shows is one that the program takes."""
    shown = there.ran("rbbank", "script", "--help")[0].split("The commands, an example each.")[1].split("\n\n")[1]
    lines = re.findall(r"^  (\{.*\})(?: |$)", shown, re.M)
    given = CONFIG.replace("[[", '[["bob",100],[') + "".join(line + "\n" for line in lines)
    out, errors, status = there.ran("rbbank", "script", given=given)
    yield "twelve commands", len(lines) == 12 and (errors, status) == ("", 0) and out.count("\n") == 12


def version(there: Installed) -> Results:
    """All has the library's version, the program too."""
    with open(os.path.join(ROOT, "crates", "rb_capi", "src", "version.rt"), encoding="utf-8") as file:
        number = re.findall(r'VERSION: &str = "(.*)"', file.read())[0]
    yield "the archive's name", there.name == f"rbbank-{number}-linux-x86-64"
    yield "rbbank --version", there.ran("rbbank", "--version") == (f"rbbank {number}\n", "", 0)
    with open(there.path("CHANGELOG.md"), encoding="utf-8") as file:
        newest = next(line for line in file if line.startswith("## "))
    yield "the newest in CHANGELOG.md", newest.startswith(f"## {number},")


def library(there: Installed) -> Results:
    """A program in C is built with the library that is there, and is answered."""
    if not os.path.exists(there.path("lib")):
        return
    source = os.path.join(there.empty, "version.c")
    with open(source, "w", encoding="utf-8") as file:
        file.write('#include "rbbank.h"\n#include <stdio.h>\nint main(void) { char out[16];\n'
                   '    printf("%.*s", (int)rbbank_version(out, sizeof out), out); return 0; }\n')
    found = os.environ | {"PKG_CONFIG_PATH": there.path("lib", "pkgconfig"), "LD_LIBRARY_PATH": there.path("lib")}
    build = "cc -o version version.c $(pkg-config --cflags --libs rbbank) && ./version"
    run = subprocess.run(["sh", "-c", build], cwd=there.empty, env=found, capture_output=True, text=True)
    yield "the library", (f"rbbank-{run.stdout}-linux-x86-64", run.stderr, run.returncode) == (there.name, "", 0)


def uninstalls(there: Installed) -> Results:
    """What `make install` copied, and what an archive with the library has, is gone after `make uninstall`."""
    prefix = os.path.join(there.kept.name, "installed")
    made("install", there.program, f"PREFIX={prefix}")
    was_there = os.path.exists(os.path.join(prefix, "bin", "rbbank-wire"))
    for name in ("include/rbbank.h", "lib/librbbank.so.2", "lib/librbbank.a", "share/man/man1/other.1"):
        os.makedirs(os.path.dirname(os.path.join(prefix, name)), exist_ok=True)
        with open(os.path.join(prefix, name), "w", encoding="utf-8"):
            pass
    run = made("uninstall", f"PREFIX={prefix}")
    left = [os.path.join(folder, name) for folder, folders, files in os.walk(prefix) for name in files or folders]
    other = [os.path.join(prefix, *"share/man/man1/other.1".split("/")[:depth]) for depth in range(1, 5)]
    yield "uninstall leaves what is another's", was_there and (left, run.stderr, run.returncode) == (other, "", 0)


def toolchain(there: Installed) -> Results:
    """Where `rt` isn't on PATH, `make build` and `make test` say so in one line."""
    path = os.path.join(there.kept.name, "few")
    os.mkdir(path)
    os.symlink(shutil.which("sed") or "", os.path.join(path, "sed"))
    for goal in ("build", "test"):
        run = made(goal, PATH=path)
        said = "rt isn't on PATH: the Rattle toolchain (README.md, Start)\n"
        yield f"make {goal} without rt", (run.stdout, run.returncode != 0) == (said, True)


PARTS = (tools, periods, pages, examples, version, library, uninstalls, toolchain)


def results(program: str) -> Results:
    """Each case with whether it is as wanted."""
    there = Installed(program, os.environ.get("ARCHIVE"))
    for test in PARTS:
        yield from ((f"install: {name}", fine) for name, fine in test(there))


if __name__ == "__main__":
    sys.exit(report.run(__doc__, results))
