#!/usr/bin/env python3
"""Builds the library for C, Rust and Python in bindings/out: librbbank.a, with all that it needs beside the system's C
library, and librbbank.so. Nothing is built into them that isn't proved. Beside them librbbank_file.a is made of
c/rbbank_file.c, which is plain C, and isn't proved.

usage: build.py              builds it by `rt lib`, over what earlier checks kept, if it isn't built of these sources
       build.py --of-gate    builds it over the libraries that `rt ci` proved just now, as the gate does; not if those
                             that are there are another command's
"""
import hashlib
import os
import re
import shutil
import subprocess
import sys
import tempfile

sys.dont_write_bytecode = True
HERE = os.path.dirname(os.path.abspath(__file__))
ROOT = os.path.dirname(HERE)
CRATES = os.path.join(ROOT, "crates")
CRATE = os.path.join(CRATES, "rb_capi")
PROVED = os.path.join(CRATE, "out", "librb_capi.a")
OUT = os.path.join(HERE, "out")
RECORD = os.path.join(OUT, "record")
STATIC = os.path.join(OUT, "librbbank.a")
SHARED = os.path.join(OUT, "librbbank.so")
FILE = os.path.join(OUT, "librbbank_file.a")


class Stop(Exception):
    """Why nothing is built, in words."""


def c_compiler():
    """The command of a C compiler, or None."""
    return next((word for word in [os.environ.get("CC"), "cc", "gcc", "clang"] if word and shutil.which(word)), None)


def kit():
    """The folder of the toolchain."""
    page = subprocess.run(["rt", "doc"], capture_output=True, text=True, check=True).stdout.strip()
    return os.path.dirname(page)


def read(path):
    with open(path, "rb") as file:
        return file.read()


def version():
    """The version of the library, where it is said."""
    return re.search(rb'VERSION: &str = "([0-9.]+)"', read(os.path.join(CRATE, "src", "version.rt")))[1].decode()


# ---- what the gate proved

def uses():
    """What each crate uses, by crates.txt."""
    text = re.sub("#.*", "", read(os.path.join(ROOT, "crates.txt")).decode())
    lines = (line.partition(":") for line in text.split("\n"))
    return {head.split()[0]: tail.split() for head, _, tail in lines if head.strip()}


def below(name, known):
    """The repository's crates below one, each after those that it uses."""
    found = []
    for crate in known[name]:
        if crate in known:
            found += [it for it in [*below(crate, known), crate] if it not in found]
    return found


def library(crate):
    """The folder of a crate's proved library, as `rt ci` and `rt lib` make it."""
    return os.path.join(CRATES, crate, "out", "rlib", crate + ".rlib")


def files(folder):
    """The paths of all files below a folder, in order."""
    return sorted(os.path.join(at, name) for at, _, names in os.walk(folder) for name in names)


def digest(paths):
    found = hashlib.sha256()
    for path in paths:
        found.update(os.path.relpath(path, ROOT).encode() + b"\0" + hashlib.sha256(read(path)).digest())
    return found.hexdigest()


def state():
    """What is in bindings/out, and what it has to be made from: the sources, and the toolchain."""
    parts = [os.path.join(CRATES, crate, part)
             for crate in [*below("rb_capi", uses()), "rb_capi"] for part in ("src", "specs", "proofs")]
    sources = [os.path.join(ROOT, "crates.txt"), os.path.join(HERE, "build.py"), *files(os.path.join(HERE, "c"))]
    sources += [path for part in parts for path in files(part)]
    toolchain = subprocess.run(["rt", "version"], capture_output=True, text=True, check=True).stdout.strip()
    return f"sources {digest(sources)}\nlibraries {digest([STATIC, SHARED, FILE])}\ntoolchain {toolchain}\n"


def is_recorded():
    """Whether the library was built of these sources, and is as it was then."""
    return all(map(os.path.exists, [RECORD, STATIC, SHARED, FILE])) and read(RECORD).decode() == state()


def is_of_gate():
    """Whether the libraries below are those that `rt ci` proved. One with a stamp beside it was made by another
    command, whose work `rt ci` gives back at its end."""
    lower = [library(crate) for crate in below("rb_capi", uses())]
    return all(os.path.isdir(it) and not os.path.exists(os.path.join(os.path.dirname(it), "stamp")) for it in lower)


# ---- the library

def over_the_gates():
    """Proves rb_capi over the libraries that the gate proved, and builds it."""
    known, tools = uses(), kit()
    lower = below("rb_capi", known)
    words = ["--crate-name", "rb_capi", "src/lib.rt"]
    for name in dict.fromkeys(["std", *known["rb_capi"]]):
        where = library(name) if name in known else os.path.join(tools, "rlibs", name + ".rlib")
        words += ["--extern", f"{name}={where}"]
    for folder in [os.path.join(tools, "rlibs"), *(os.path.dirname(library(crate)) for crate in lower)]:
        words += ["-L", f"dependency={folder}"]
    words += ["--antt-project", os.path.join(tools, "rattle", "logic", "antt-project.json")]
    words += ["--logic-built", os.path.join(tools, "logic_built"), "--toolchain", os.path.join(tools, "toolchain")]
    words += ["--crate-type", "staticlib", "--links", "rb_capi=", "--backend", "llvm"]
    words += ["--jobs", "2", "-o", PROVED]
    ran = subprocess.run([os.path.join(tools, "bin", "rattle"), "build", *words], cwd=CRATE, stdout=subprocess.PIPE,
                         stderr=subprocess.STDOUT, text=True, errors="replace")
    verdict = [line for line in ran.stdout.split("\n") if line.startswith("logic=proved ")]
    if ran.returncode != 0 or not verdict:
        raise Stop(f"{ran.stdout[-3000:]}\nrattle build ended in {ran.returncode}")


def by_rt_lib():
    """Proves whatever isn't proved here yet, and builds the library."""
    print("no library of these sources is here: `rt lib` proves it first, up to an hour; if it is ended, it goes on "
          "from what it checked", flush=True)
    subprocess.run(["rt", "lib"], cwd=CRATE, check=True)


def static(parts):
    """One archive of these."""
    if os.path.exists(STATIC):
        os.remove(STATIC)
    lines = [f"CREATE {STATIC}", *(f"ADDLIB {part}" for part in parts), "SAVE", "END", ""]
    subprocess.run(["ar", "-M"], input="\n".join(lines), text=True, check=True)


def shared(compiler):
    """The static library again, as one that is loaded as a program runs and needs nothing but the C library. What is
    linked with it asks for it by its name with the first number of the version."""
    name = os.path.basename(SHARED) + "." + version().partition(".")[0]
    whole = ["-Wl,--whole-archive", STATIC, "-Wl,--no-whole-archive", "-Wl,--no-undefined", f"-Wl,-soname,{name}"]
    subprocess.run([compiler, "-shared", "-o", SHARED, *whole], check=True)
    # (no link: `rt ci` refuses one in the repository)
    named = os.path.join(OUT, name)
    if os.path.lexists(named):
        os.remove(named)
    shutil.copy(SHARED, named)


def of_file(compiler):
    """The calls on a journal's file, for C: tested, not proved."""
    with tempfile.TemporaryDirectory() as folder:
        made = os.path.join(folder, "rbbank_file.o")
        words = ["-std=c11", "-D_DEFAULT_SOURCE", "-O2", "-fPIC", "-c", "-o", made]
        subprocess.run([compiler, *words, os.path.join(HERE, "c", "rbbank_file.c")], check=True)
        subprocess.run(["ar", "rcs", FILE, made], check=True)


def main():
    words = sys.argv[1:]
    if words not in ([], ["--of-gate"]):
        print(__doc__)
        return 0 if words in (["--help"], ["-h"]) else 2
    missing = [word for word in ("rt", "ar") if shutil.which(word) is None]
    missing += [] if c_compiler() else ["C compiler"]
    if missing:
        raise Stop(f"no {', no '.join(missing)} on PATH, so no library is built")
    if not is_recorded() and (is_of_gate() or not words):
        over_the_gates() if words else by_rt_lib()
        os.makedirs(OUT, exist_ok=True)
        static([PROVED, os.path.join(kit(), "c", "liblibc_c.a")])
        shared(c_compiler())
        of_file(c_compiler())
        with open(RECORD, "w", encoding="utf-8") as file:
            file.write(state())
    if not words:
        print(f"{STATIC}\n{SHARED}\n{FILE}")
    return 0


if __name__ == "__main__":
    try:
        sys.exit(main())
    except Stop as why:
        sys.exit(f"build.py: {why}")
    except subprocess.CalledProcessError as why:
        sys.exit(f"build.py: {why.cmd[0]} ended in {why.returncode}")
