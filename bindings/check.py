#!/usr/bin/env python3
"""The library from C, Rust and Python: the tests of each, and whether each answers as the program does.

usage: check.py [--quiet] PROGRAM      (--quiet prints only what is different)

Every script, histories, migration and site of examples/ goes through the three, whole and by handles, a site also by
the library's own journal, and what they write, their status and the journal are compared with what examples/ has, byte
for byte. So is what they answer to the closings of tests/closings.py. 10,000 odd lines, valid and broken, always the
same, go through C under AddressSanitizer (and some under valgrind, where it is there): those that are taken have to be
answered as PROGRAM answers them, and those that aren't have to be bad lines to PROGRAM.
It wants what build.py makes. Where a compiler is missing, it says so and ends in status 1.
"""
import concurrent.futures
import functools
import glob
import os
import random
import re
import shutil
import subprocess
import sys
import tempfile
import threading

sys.dont_write_bytecode = True
import build

HERE = os.path.dirname(os.path.abspath(__file__))
ROOT = os.path.dirname(HERE)
EXAMPLES = os.path.join(ROOT, "examples")
sys.path[1:1] = [os.path.join(ROOT, "bench"), os.path.join(ROOT, "tests"), os.path.join(EXAMPLES, "tools")]
import bank
import closings
import odd_lines

LINES, SEED = 10_000, 31
REGISTRY = "/usr/share/cargo/registry"  # where Debian's librust-serde-json-dev and its like put crates
UNDER_VALGRIND = 300  # odd lines, since it takes a hundred times as long
ENVIRONMENT = os.environ | {
    "RBBANK_LIB": build.OUT, "CARGO_TARGET_DIR": os.path.join(build.OUT, "cargo"), "PYTHONDONTWRITEBYTECODE": "1",
    "ASAN_OPTIONS": "detect_leaks=1:abort_on_error=0:exitcode=86",
}
WORDS = {"histories": ["audit"], "migration": ["migrate"], "site": ["site", "journal"]}
OF_SCRIPTS = ["script", "bank"]
WITH_FILES = ("journal", "rows")  # the programs of bindings/c that keep a journal by rbbank_file.c


def run(words, given=b"", folder=None):
    """What a command writes, its errors and its status."""
    done = subprocess.run(words, input=given, capture_output=True, cwd=folder, env=ENVIRONMENT, timeout=600)
    return done.stdout, done.stderr, done.returncode


def stored(path, otherwise=b""):
    """What a file has, where it is there."""
    if not os.path.exists(path):
        return otherwise
    with open(path, "rb") as file:
        return file.read()


# ---- the tests and the rows, by each language

def source_of_c(name):
    return os.path.join(HERE, "c", name + ".c")


def compiled(name, *flags):
    """A program of bindings/c, linked with the library, or None where the compiler refuses it. It is given its name
    once it is whole, since others may be running the one before."""
    out = os.path.join(build.OUT, name + ("-asan" if flags else ""))
    made = f"{out}.{threading.get_ident()}"
    strict = ["-std=c11", "-D_DEFAULT_SOURCE", "-Wall", "-Wextra", "-Wpedantic", "-Werror", "-O1", "-g", "-pthread"]
    wanted = f'-DRBBANK_WANTED_VERSION="{build.version()}"'
    sources = [source_of_c(one) for one in ([name, "rbbank_file"] if name in WITH_FILES else [name])]
    _, errors, status = run([build.c_compiler(), *strict, wanted, *flags, "-o", made, *sources, build.STATIC])
    if status != 0:
        print(errors.decode(), file=sys.stderr)
        return None
    os.replace(made, out)
    return out


def of_c():
    """The words that run the rows, and the tests: each with whether it passes."""
    yield "C, test.c", passes([compiled("test")])
    yield "C, test.c under AddressSanitizer", passes([compiled("test", "-fsanitize=address")])
    refused = compiled("refused", "-fsanitize=address", "-Wl,--wrap=malloc,--wrap=realloc")
    yield "C, each allocation refused, under AddressSanitizer", passes([refused])
    yield "C, example.c", example()
    yield "C, restart.c", restart()
    yield "C, journal.c", goes_on([compiled("journal")])
    if shutil.which("pkg-config"):
        yield "C, installed, with pkg-config", installed()


def example():
    """Whether the example prints what the bank and the site answer, and leaves the journal that the site has; a second
    time it leaves the journal as it is."""
    program = compiled("example")
    if program is None:
        return False
    with tempfile.TemporaryDirectory() as folder:
        journal = os.path.join(folder, "journal")
        found = run([program, journal])
        kept = stored(journal)
        again = run([program, journal])
        left = stored(journal)
    site = stored(os.path.join(EXAMPLES, "sites", "site_deposit.site.expected")).splitlines(keepends=True)[0]
    entry = stored(os.path.join(EXAMPLES, "sites", "site_deposit.site.journal")).splitlines(keepends=True)[1]
    replies = (b'{"kind":"deposit","name":"B0.1"}\n{"held":"B0.1"}\ncolumn 29: a comma or ] is missing here\n'
               b'{"applied":"B0.1"}\n{"balance":500}\n')
    first = found == (replies + site, b"", 0) and kept.splitlines(keepends=True)[1:] == [entry]
    return first and again == (replies, b"example: status -1\n", 1) and left == kept


def restart():
    """Whether a site goes on from its journal, and what a crash left after its last line is cut off. A new journal has
    to be asked for, and then there may be none."""
    program = compiled("restart")
    if program is None:
        return False
    with tempfile.TemporaryDirectory() as folder:
        journal = os.path.join(folder, "journal")
        missing = run([program, "0", journal])
        made = os.path.exists(journal)
        _, sent, _ = run([program, "0", journal, "--new"], b'{"deposit":["ann",500]}\n{"pass":1}\n')
        before = stored(journal)
        twice = run([program, "0", journal, "--new"])
        fresh = not made and (missing, twice) == ((b"", b"restart: no journal\n", 1),
                                                  (b"", b"restart: there is a journal\n", 1))
        with open(journal, "ab") as file:
            file.write(b'{"event":')
        found, again, status = run([program, "0", journal], b'{"balance":"ann"}\n{"balance"')
        kept = stored(journal)
        another = run([program, "1", journal])
        with open(journal, "ab") as file:
            file.write(b"\t")
        sealed = run([program, "0", journal])
    answer = (b'{"reply":{"balance":500},"sends":[],"then":[]}\n'
              b"column 11: the line ends here: an object is on one line, and that of column 1 has no }\n")
    entry = b'{"event":{"balance":"ann"},"reply":{"balance":500},"site":0}\n'
    return (fresh and (found, again, status) == (answer, sent, 0) and kept == before + entry
            and re.fullmatch(rb'to all: \{"shadow":.*\}\nto 1: \{"token":\[1,1,0\]\}\n', sent) is not None
            and sealed == (b"", b"restart: the journal is sealed, and no site goes on from it\n", 1)
            and another == (b"", b"restart: the journal has a line that isn't the site's next entry\n", 1))


def goes_on(words):
    """Whether a site that is killed after each answer goes on from its journal's file, and leaves it as the program
    would. A new journal has to be asked for, and then there may be none."""
    if words[0] is None:
        return False
    answers = []
    with tempfile.TemporaryDirectory() as folder:
        journal = os.path.join(folder, "journal")
        _, none, missing = run([*words, "0", journal])
        made = os.path.exists(journal)
        for new in (["--new"], [], []):
            with subprocess.Popen([*words, "0", journal, *new], stdin=subprocess.PIPE, stdout=subprocess.PIPE) as site:
                site.stdin.write(b'{"deposit":["ann",500]}\n')
                site.stdin.flush()
                answers.append(site.stdout.readline())
                site.kill()
        before = stored(journal)
        _, twice, refused = run([*words, "0", journal, "--new"])
        same = stored(journal) == before
        found, errors, status = run([*words, "0", journal], b'{"balance":"ann"}\n\n{}')
        kept = stored(journal)
    fresh = missing == refused == 1 and not made and same and b"there is a journal" in twice and b"no journal" in none
    names = [re.match(rb'\{"reply":\{"kind":"deposit","name":"B0\.(\d)"\},', line)[1] for line in answers]
    answer = b'{"reply":{"balance":1500},"sends":[],"then":[]}\n{"bad":"line","line":4}\n'
    whole = kept.endswith(b'"site":0}\n ')
    same = (bank.without_why(found), errors, status) == (answer, b"", 0)
    return fresh and same and whole and names == [b"1", b"2", b"3"]


def installed():
    """Whether programs are built by what `make install-libs` copied and pkg-config says, alone and with either library:
    that of a bank and a site, and that of a site with its journal in a file."""
    with tempfile.TemporaryDirectory() as folder:
        if not passes(["make", "--no-print-directory", "install-libs", f"PREFIX={folder}"], ROOT):
            return False
        found = os.environ | {"PKG_CONFIG_PATH": os.path.join(folder, "lib", "pkgconfig")}

        def said(word):
            words = ["pkg-config", word, "rbbank"]
            return subprocess.run(words, env=found, capture_output=True, text=True).stdout.split()

        def built(name, *link):
            # The source is copied, since the headers that are beside it would be found before those that are installed.
            source, program = shutil.copy(source_of_c(name), folder), os.path.join(folder, name)
            words = [build.c_compiler(), "-D_DEFAULT_SOURCE", *said("--cflags"), "-o", program, source, *link]
            return [program if passes(words) else None]

        same = [said("--modversion") == [build.version()]]
        for link in ([*said("--libs"), "-Wl,-rpath," + os.path.join(folder, "lib")],
                     ["-Wl,-Bstatic", *said("--libs"), "-Wl,-Bdynamic"]):
            same += [passes(built("example", *link)), goes_on(built("journal", *link))]
        return all(same)


def of_rust():
    crate = os.path.join(HERE, "rust")
    yield "Rust, tests and documentation", passes(["cargo", "test", "--offline", "--quiet"], crate)
    yield "Rust, journal.rs", goes_on(example_of_rust("journal"))
    yield "Rust, no warning", passes(["cargo", "build", "--offline", "--quiet", "--all-targets"], crate, quiet=True)
    pages = ["cargo", "doc", "--offline", "--quiet", "--no-deps"]
    yield "Rust, no warning of its pages", passes(pages, crate, quiet=True)
    if shutil.which("cargo-clippy"):
        words = ["cargo", "clippy", "--offline", "--quiet", "--all-targets", "--", "-D", "warnings"]
        yield "Rust, no warning of clippy", passes(words, crate)
    if glob.glob(os.path.join(REGISTRY, "serde_json-*")):
        words = ["cargo", "test", "--offline", "--quiet", "--config", 'source.crates-io.replace-with="there"',
                 "--config", f'source.there.directory="{REGISTRY}"']
        yield "Rust, values by serde", passes(words, os.path.join(crate, "serde"))


def of_python():
    folder = os.path.join(HERE, "python")
    yield "Python, tests and documentation", passes([sys.executable, "test_rbbank.py"], folder)
    yield "Python, journal.py", goes_on([sys.executable, os.path.join(folder, "journal.py")])
    if shutil.which("mypy"):
        yield "Python, types", passes(["mypy", "--cache-dir", os.devnull, "rbbank"], folder)
    yield "Python, a wheel without a network", wheel(folder)


def wheel(folder):
    """Whether the wheel is built, and has the library with it."""
    with tempfile.TemporaryDirectory() as path:
        words = ["wheel", "--quiet", "--no-index", "--no-deps", "--no-build-isolation", "--wheel-dir", path, "."]
        if not passes([sys.executable, "-m", "pip", *words], folder):
            return False
        wheels, there = glob.glob(os.path.join(path, "*.whl")), os.path.join(path, "installed")
        words = ["install", "--quiet", "--no-index", "--target", there, *wheels]
        if not passes([sys.executable, "-m", "pip", *words]):
            return False
        alone = {name: said for name, said in ENVIRONMENT.items() if name != "RBBANK_LIB"} | {"PYTHONPATH": there}
        code = "import rbbank; print(rbbank.__file__, rbbank.version())"
        done = subprocess.run([sys.executable, "-c", code], env=alone, cwd=path, capture_output=True, text=True)
        return done.stdout.split() == [os.path.join(there, "rbbank", "__init__.py"), build.version()]


def passes(words, folder=None, quiet=False):
    """Whether a command ends in 0, and with `quiet` says nothing. What it says is printed where it doesn't."""
    if words[0] is None:
        return False
    out, errors, status = run(words, folder=folder)
    fine = status == 0 and not (quiet and errors)
    if not fine:
        print((out + errors).decode("utf-8", "replace"), file=sys.stderr)
    return fine


def example_of_rust(name):
    """The words that run an example of the crate."""
    words = ["cargo", "build", "--offline", "--quiet", "--release", "--example", name]
    fine = passes(words, os.path.join(HERE, "rust"))
    return [os.path.join(build.OUT, "cargo", "release", "examples", name)] if fine else [None]


def rows_of_rust():
    return example_of_rust("rows")


# Each language: what has to be there, its tests, and the words that run its rows.
LANGUAGES = {
    "C": (build.c_compiler, of_c, lambda: [compiled("rows")]),
    "Rust": (lambda: shutil.which("cargo"), of_rust, rows_of_rust),
    "Python": (lambda: sys.executable, of_python, lambda: [sys.executable, os.path.join(HERE, "python", "rows.py")]),
}
NEEDS = {"C": "C compiler", "Rust": "cargo", "Python": "Python"}


def first_line(text):
    """A fault on standard error without the reason after it, which the program alone says."""
    return re.sub(r"(?m)^  .*\n", "", text)


def fault_of(text):
    """A fault on standard error as the library's caller knows it, without the kind of a bad line. That of what a crash
    left after the last line is said by the program alone."""
    text = re.sub(r"(?m)^rbbank: journal line .* cut off, kept in .*\n", "", first_line(text.decode()))
    return re.sub(r"(?m)^(rbbank: line \d+): .*$", r"\1", text).encode()


def cut_off(before, fault):
    """What a crash left after a journal's last line, by what the program says of it."""
    said = re.search(rb"(?m)^rbbank: journal line \d+: (\d+) bytes behind it cut off, kept in .*$", fault)
    return before[-int(said[1]):] if said else None


def row(rows, path, word):
    """Whether an example is answered as it is stored, and its journal is what it has to be. A site of the library
    records all events; by default one of the program doesn't, so then only its answers are compared. By the library's
    own journal what is cut off of it is kept beside it."""
    stem = path.removesuffix(".jsonl")
    before = stored(stem + ".before", None)
    with tempfile.TemporaryDirectory() as folder:
        journal = os.path.join(folder, "journal")
        if before is not None:
            with open(journal, "wb") as file:
                file.write(before)
        more = [*stored(stem + ".words").decode().split(), "--journal", journal] if word in WORDS["site"] else []
        out, errors, status = run([*rows, word, *more], stored(path))
        found = bank.without_why(out), errors, status
        after = stored(journal, None) if "--record" in more else None
        kept = stored(journal + ".cut", None)
    fault = stored(stem + ".fault")
    wanted = stored(stem + ".expected"), fault_of(fault), int(stored(stem + ".status", b"0"))
    return (found == wanted and (after is None or after == stored(stem + ".journal", after))
            and (word != "journal" or kept == cut_off(before, fault)))


def same_rows(name, rows):
    """Each example through the rows of a language."""
    for path in sorted(glob.glob(os.path.join(EXAMPLES, "*", "*.jsonl")), key=os.path.basename):
        if b"--bank" in stored(path.removesuffix(".jsonl") + ".words", b""):
            continue  # a bank of the library has no name
        for word in WORDS.get(path.removesuffix(".jsonl").rpartition(".")[2], OF_SCRIPTS):
            yield f"{name}, {word}: {os.path.basename(path)}", row(rows, path, word)


def same_closings(name, rows, program):
    """What closing the books answers through the rows of a language, in each case whose files are there. That two are
    one file, what is a pipe, and an option with its value in one word, the program alone sees."""
    with tempfile.TemporaryDirectory() as path:
        folder = closings.Folder(program, path)
        folder.make()
        for case in closings.CASES:
            files = [word for word in case.words.split() if "." in word]
            if "pipe" in case.words or "the same file" in case.err or "=" in case.words:
                continue
            if all(os.path.exists(os.path.join(path, file)) for file in files):
                out, errors, status = run([*rows, "close", *case.words.split()], folder=path)
                found = out.decode(), errors.decode(), status
                wanted = case.out, first_line(case.err), case.status
                yield f"{name}, close {case.words[-60:]}", found == wanted


# ---- odd lines, through C

def odd_lines_of(form):
    """Odd lines with no line feed in them, none blank."""
    odd = odd_lines.Odd(SEED)
    lines = []
    while len(lines) < LINES:
        odd.spaced = odd.one_in(4)
        line = (odd.line() if form == "odd" else odd.spoilt(odd.event())).encode()
        if line.strip() and b"\n" not in line:
            lines.append(line)
    return lines


def sorted_out(out, lines):
    """The answers to the lines that were taken, these lines, and the bad ones. None where a status is another."""
    answers, taken, bad = [], [], []
    left = iter(out.splitlines(keepends=True))
    for line, status in zip(lines, left):
        if status not in (b"0\n", b"2\n"):
            return None
        if status == b"0\n":
            answers.append(next(left, b""))
        (taken if status == b"0\n" else bad).append(line)
    return (answers, taken, bad) if len(taken) + len(bad) == len(lines) and next(left, None) is None else None


class Program:
    """The built program, for the same lines."""

    def __init__(self, path):
        self.path = path

    def answer(self, form, lines):
        if form == "odd":
            return run([self.path, "script"], b"".join(line + b"\n" for line in [odd_lines.CONFIG[:-1], *lines]))
        with tempfile.TemporaryDirectory() as folder:
            words = [self.path, "site", "--me", "0", "--journal", os.path.join(folder, "journal"), "--new"]
            words += ["--record", "all"]
            return run(words, b"".join(line + b"\n" for line in [odd_lines.CONFIG[:-1], *lines]))

    def is_bad(self, form, line):
        out, errors, status = self.answer(form, [line])
        if form == "odd":
            return (out, errors.split(b"\n  ")[0].rstrip(b"\n"), status) == (b"", b"rbbank: line 2: bad line", 2)
        return (bank.without_why(out), errors, status) == (b'{"bad":"line","line":2}\n', b"", 0)


def odd(program, form):
    """Odd lines through C under AddressSanitizer, beside the program."""
    rows, lines = compiled("rows", "-fsanitize=address"), odd_lines_of(form)
    given = b"".join(line + b"\n" for line in [odd_lines.CONFIG[:-1], *lines])
    out, errors, status = run([rows, form], given) if rows else (b"", b"", None)
    if errors:
        print(errors.decode("utf-8", "replace")[:3000], file=sys.stderr)
    found = sorted_out(out, lines)
    yield f"C, {LINES:,} lines by {form} under AddressSanitizer", (errors, status) == (b"", 0) and found is not None
    if found is None:
        return
    answers, taken, bad = found
    same = program.answer(form, taken) == (b"".join(answers), b"", 0)
    yield f"... {len(taken):,} taken, answered as by the program", same and len(taken) > LINES // 4
    # A site's journal takes its time, so of its bad lines some are tried.
    tried = bad if form == "odd" else random.Random(SEED).sample(bad, min(len(bad), 300))
    with concurrent.futures.ThreadPoolExecutor(os.cpu_count()) as pool:
        fine = all(pool.map(lambda line: program.is_bad(form, line), tried))
    yield f"... {len(bad):,} bad ones, of which {len(tried):,} are bad to the program", fine and len(bad) > LINES // 50
    if shutil.which("valgrind"):
        words = ["valgrind", "--quiet", "--error-exitcode=9", "--leak-check=full", compiled("rows"), form]
        some = run(words, b"".join(given.splitlines(keepends=True)[:UNDER_VALGRIND + 1]))
        yield f"C, {UNDER_VALGRIND} of them under valgrind", some[1:] == (b"", 0) and out.startswith(some[0])


def shop():
    yield "the shop of examples/shop", passes([sys.executable, os.path.join(EXAMPLES, "shop", "run.py"), "--quiet"])


def declarations():
    words = [sys.executable, os.path.join(HERE, "declarations.py"), "--check"]
    yield "declarations and exports", passes(words)


def rows_of(name, rows, program):
    """What the rows of a language answer."""
    words = rows()
    yield from same_rows(name, words) if words[0] else [(f"{name}, rows", False)]
    yield from same_closings(name, words, program) if words[0] else []


def lacking(name):
    yield f"no {NEEDS[name]} on PATH, so nothing of {name} is tested", None


def groups(program):
    """Calls that may go on side by side: each gives some cases with whether each is as wanted, None for what isn't
    tested."""
    found = [declarations]
    for name, (needed, tests, rows) in LANGUAGES.items():
        there = [tests, functools.partial(rows_of, name, rows, program)]
        found += [functools.partial(lacking, name)] if needed() is None else there
    if build.c_compiler():
        found += [functools.partial(odd, Program(program), form) for form in ("odd", "odd-site")]
    return [*found, shop]


def results(program):
    """Each case with whether it is as wanted."""
    with concurrent.futures.ThreadPoolExecutor(os.cpu_count()) as pool:
        for cases in pool.map(lambda group: list(group()), groups(program)):
            yield from cases


def main():
    words = [word for word in sys.argv[1:] if word != "--quiet"]
    if len(words) != 1 or words[0].startswith("-"):
        print(__doc__)
        return 0 if words in (["--help"], ["-h"]) else 2
    if not os.access(words[0], os.X_OK) or os.path.isdir(words[0]):
        sys.exit(f"check.py: {words[0]}: no program")
    if not os.path.exists(build.SHARED):
        sys.exit("check.py: there is no library yet: bindings/build.py")
    fine, count = True, 0
    for name, same in results(os.path.abspath(words[0])):
        fine, count = bool(fine and same), count + bool(same)
        if not same or "--quiet" not in sys.argv:
            print({True: "same     ", False: "DIFFERENT", None: "SKIPPED  "}[same], name, flush=True)
    print(f"bindings: {count} as wanted" + ("" if fine else ", not all"))
    return 0 if fine else 1


if __name__ == "__main__":
    sys.exit(main())
