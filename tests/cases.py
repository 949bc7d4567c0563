#!/usr/bin/env python3
"""Runs the cases of tests/cases, the worked rows and some runs that are made here through a built program.

usage: cases.py [--quiet] PROGRAM      (--quiet prints only what is different)

A case begins with its name in brackets. Its lines:
  $ WORDS   the words after the program's name
  < TEXT    a line of standard input; <\\ TEXT: bytes as Python escapes them, with no line feed of their own
  <!        the read behind the input fails
  > TEXT    a line of standard output; >~ TEXT: lines that it has somewhere, in this order, the first maybe in part;
            >\\ TEXT: a text with no line feed of its own
  <> TEXT   a line of input that is a line of the output too; the case runs again with a space before each of them
  ? TEXT    a line of input behind the others: the case runs once with each such line
  ! TEXT    a line of standard error; !~ TEXT: a part of it
  = N       the exit status, if it isn't 0
  & FILE    the file that standard output goes to
  @ BYTES   standard output is a file that takes this many bytes, and then fails
  % BYTES   the addresses that the program may have
"""
import codecs
import glob
import itertools
import os
import re
import resource
import socket
import subprocess
import sys
import tempfile
import threading
import tty
from typing import NamedTuple, Optional

import one_teller
import report

HERE = os.path.dirname(os.path.abspath(__file__))
EXAMPLES = os.path.join(os.path.dirname(HERE), "examples")
sys.path.insert(0, os.path.join(EXAMPLES, "tools"))
import from_rows  # noqa: E402

BANK = '{"accounts":[["ann",0]],"sites":2,"version":1}'
BANK_IN_FULL = (
    '{"accounts":[["ann",0]],"blue":1000000,"epoch":4000000000,"history":100000000,"inbox":4096,"red":1000000,'
    '"sites":2,"version":2}\n'
)
BALANCE = '{"balance":"ann","site":0}'
SECONDS = 60  # after which a run is given up
STUCK = '{"fault":"stuck","next":[1,1]}\n'
HELP = re.compile(r'const (\w+?)(?:_HELP: &str =|: Texts = Texts \{[^;]*?help:)\s*r#"(.*?)"#', re.DOTALL)
LINE_LIMIT = 1_048_576  # bytes of a line without its line feed (docs/FORMAT.md)
TELLERS_BANK = (
    '{"accounts":[["a0",1000],["a1",1000],["a2",1000],["a3",1000]],'
    '"blue":1000000,"epoch":4000000000,"history":100000000,"inbox":4096,"red":1000000'
)
CALL = re.compile(r'\{"event":\{"(?!apply"|shadow"|token")')
# an operation that a site made or applied: which of the two, the operation's name and the site's number
HAS = re.compile(r'"reply":\{"(applied|kind":"\w+","name)":"([^"]+)"\},"site":(\d+)\}$')
TOKEN = re.compile(r'"reply":\{"(passed|taken)":(\d+)\}')
# runs of one teller, which end the same each time: the sites and the seed. The second has each of a teller's answers,
# and the third writes clocks as pairs
ONE_TELLER = [(2, 0), (3, 1281), (9, 4294967295)]
# other runs of tellers, which an audit has to accept: the sites, the tellers and the version
TELLERS = [
    ("threads_audit", 3, 4, 1), ("threads_audit16", 16, 16, 2),
    ("eight sites", 8, 2, 1), ("nine sites", 9, 2, 2), ("most tellers", 16, 64, 2),
]


class Case(NamedTuple):
    """A run of the program, and what is wanted of it: its output and its errors, whole or in part, and its status."""

    name: str
    words: list
    given: bytes
    out: str = ""
    part_of_out: str = ""
    err: str = ""
    part_of_err: str = ""
    status: int = 0
    output: Optional[str] = None
    addresses: Optional[int] = None
    room: Optional[int] = None
    fails: bool = False
    end_of_out: str = ""


def parsed(name, text):
    """The runs of a case."""
    words, given, both, each, status, output, addresses, room, fails = [], b"", [], [], 0, None, None, None, False
    wanted = {">": "", ">~": "", "!": "", "!~": ""}
    for line in text.splitlines():
        mark, _, rest = line.partition(" ")
        if mark == "$":
            words = rest.split()
        elif mark == "<":
            given += rest.encode() + b"\n"
        elif mark == "<\\":
            given += codecs.escape_decode(rest.encode())[0]
        elif mark == "<>":
            both.append(rest)
        elif mark == "?":
            each.append(rest)
        elif mark == "<!":
            fails = True
        elif mark == ">\\":
            wanted[">"] += rest
        elif mark in wanted:
            wanted[mark] += rest + "\n"
        elif mark == "=":
            status = int(rest)
        elif mark == "&":
            output = rest
        elif mark == "%":
            addresses = int(rest)
        elif mark == "@":
            room = int(rest)
        elif line and not line.startswith("#"):
            sys.exit(f"cases: no such line: {line}")
    wanted[">"] += "".join(line + "\n" for line in both)
    for space in ["", " "] if both else [""]:
        lines = "".join(space + line + "\n" for line in both)
        for last in each or [""]:
            known = f"{name} {last}".rstrip()
            more = (status, output, addresses, room, fails)
            yield Case(known, words, given + (lines + last).encode(), *wanted.values(), *more)


def written_down():
    """The cases of the files, each by its file's name and its own."""
    for path in sorted(glob.glob(os.path.join(HERE, "cases", "*.cases"))):
        with open(path, encoding="utf-8") as file:
            parts = re.split(r"^\[(.+)\]\n", file.read(), flags=re.M)
        kind = os.path.basename(path).removesuffix(".cases")
        for name, text in zip(parts[1::2], parts[2::2]):
            yield from parsed(f"{kind}: {name}", text)


def two_hundred_backwards():
    """200 deposits at site 0 reach site 1 last to first; each is held there until all before it are applied."""
    numbers = range(1, 201)
    commands = ['{"deposit":["ann",1],"site":0}' for _ in numbers]
    commands += [f'{{"deliver":{n},"site":1}}' for n in reversed(numbers)]
    commands += ['{"apply":"B0.2","site":1}'] + [f'{{"apply":"B0.{n}","site":1}}' for n in numbers]
    replies = [f'{{"kind":"deposit","name":"B0.{n}"}}' for n in numbers]
    replies += [f'{{"held":"B0.{n}"}}' for n in reversed(numbers)]
    replies += ['{"refused":15}'] + [f'{{"applied":"B0.{n}"}}' for n in numbers]
    lines = [BANK, *commands, '{"balance":"ann","site":1}']
    out = "\n".join([*replies, '{"balance":200}', ""])
    return Case("two_hundred_backwards", ["script"], "\n".join(lines).encode(), out)


def forty_deposits():
    """Each balance as of each position is the sum of what came before: three deposits to ann and then one to bob in
    turn, the n-th of n cents."""
    cents = {"ann": [0], "bob": [0]}
    commands, replies = [], []
    for n in range(1, 41):
        account = "ann" if n % 4 else "bob"
        commands.append(f'{{"deposit":["{account}",{n}],"site":0}}')
        replies.append(f'{{"kind":"deposit","name":"B0.{n}"}}')
        for name, sums in cents.items():
            sums.append(sums[-1] + n * (name == account))
    for account, sums in cents.items():
        commands += [f'{{"asof":["{account}",{n}],"site":0}}' for n in range(41)]
        replies += [f'{{"balance":{cents}}}' for cents in sums]
    bank = '{"accounts":[["ann",0],["bob",0]],"sites":2,"version":1}'
    return Case("forty deposits", ["script"], "\n".join([bank, *commands]).encode(), "\n".join([*replies, ""]))


def forged_messages():
    """Site 1 records messages that no site sent. No reply is wrong, and nobody sent the message that came first."""
    for name, lines in from_rows.forged().items():
        yield Case(f"forged: {name}", ["audit"], "\n".join(lines).encode(), STUCK, status=1)


def ids_in_each_order():
    """An entry with an id is read in each order of its keys, and written in one."""
    members = ['"event":{"deposit":["ann",500]}', '"id":"a-1"', '"reply":{"kind":"deposit","name":"B0.1"}', '"site":1']
    lines = ["{" + ",".join(order) + "}" for order in itertools.permutations(members)]
    written = BANK_IN_FULL + ("{" + ",".join(members) + "}\n") * len(lines)
    return Case("ids in each order", ["migrate"], "\n".join([BANK, *lines]).encode(), written)


def long_lines(program, alone, out="", err="", status=0):
    """The longest line is read, and then the line behind it; a line of one byte more is too long. So it is where the
    spaces are in front, and nothing is behind."""
    first = BANK.ljust(LINE_LIMIT)
    yield Case(f"longest line: {program}", [program], f"{first}\n{BALANCE}".encode(), out, err=err, status=status)
    too_long = "rbbank: line 1: line too long\n"
    yield Case(f"line too long: {program}", [program], f"{first} \n{BALANCE}".encode(), err=too_long, status=2)
    first = BANK.rjust(LINE_LIMIT)
    yield Case(f"longest line alone: {program}", [program], first.encode(), alone)
    yield Case(f"line too long, alone: {program}", [program], f" {first}".encode(), err=too_long, status=2)


def helps():
    """The help of a command ends in the command's text."""
    with open(os.path.join(HERE, "..", "crates", "rb_cli", "src", "texts.rt"), encoding="utf-8") as texts:
        for command, text in HELP.findall(texts.read()):
            words = [command.lower(), "--help"]
            yield Case(f"end of the help: {command.lower()}", words, b"", end_of_out=text)


def many_accounts(count, **wanted):
    accounts = ",".join(f'["a{n}",{n}]' for n in range(count))
    config = f'{{"accounts":[{accounts}],"sites":2,"version":1}}'
    last = f'{{"balance":"a{count - 1}","site":0}}'
    return Case(f"{count} accounts", ["script"], f"{config}\n{last}".encode(), **wanted)


def made_here():
    for name, (given, replies) in from_rows.rows().items():
        yield Case(f"row: {name}", ["script"], given.encode(), replies)
    yield from forged_messages()
    yield two_hundred_backwards()
    yield forty_deposits()
    yield ids_in_each_order()
    yield many_accounts(1000, out='{"balance":999}\n')
    yield many_accounts(1001, err="rbbank: line 1: bad configuration\n", status=2)
    yield from long_lines("script", "", out='{"balance":0}\n')
    yield from long_lines("audit", '{"order":[]}\n', err="rbbank: line 2: bad line\n", status=2)
    yield from helps()
    for sites, seed in ONE_TELLER:
        words = ["threads", "--sites", str(sites), "--tellers", "1", "--seed", str(seed)]
        yield Case(f"one teller at {sites} sites", words, b"", one_teller.text(sites, seed))


def without_reason(written, whole):
    """What was written on standard error without the lines that say why a line is bad, unless these are wanted too."""
    if "\n  " in whole:
        return written
    return "".join(line for line in written.splitlines(keepends=True) if not line.startswith("  "))


def is_wanted(written, whole, part, end=""):
    """Whether a run wrote the whole, or, if a part or an end is named, that part of it."""
    if end:
        return written.rstrip().endswith(end)
    return part.removesuffix("\n") in written if part else written == whole


def failing(given):
    """A terminal that gives these bytes, and then an error, since nobody is at its other end."""
    here, there = os.openpty()
    tty.setraw(there)
    os.write(there, given)
    os.close(there)
    return here


def into_room(words, case):
    """A run whose output is a file that takes a number of bytes. What is ignored here is ignored there: the signal."""
    def bound():
        resource.setrlimit(resource.RLIMIT_FSIZE, (case.room, case.room))
    with tempfile.TemporaryFile() as file:
        run = subprocess.run(words, input=case.given, stdout=file, stderr=subprocess.PIPE, preexec_fn=bound,
                             restore_signals=False)
        file.seek(0)
        run.stdout = file.read()
    return run


def run_of(program, case):
    """A run of the program on a case."""
    limit = case.addresses and (lambda: resource.setrlimit(resource.RLIMIT_AS, (case.addresses,) * 2))
    words = [program, *case.words]
    if case.room is not None:
        return into_room(words, case)
    if case.fails:
        with os.fdopen(failing(case.given), "rb") as given:
            return subprocess.run(words, stdin=given, capture_output=True)
    if case.output is None:
        return subprocess.run(words, input=case.given, capture_output=True, preexec_fn=limit)
    with open(case.output, "wb") as output:
        return subprocess.run(words, input=case.given, stdout=output, stderr=subprocess.PIPE, preexec_fn=limit)


def passes(program, case):
    run = run_of(program, case)
    fine = is_wanted((run.stdout or b"").decode(), case.out, case.part_of_out, case.end_of_out)
    said = run.stderr.decode()
    said = said if case.part_of_err else without_reason(said, case.err)
    return fine and is_wanted(said, case.err, case.part_of_err) and run.returncode == case.status


def catches_up(entries, sites):
    """Whether each site made or applied all operations that were made at any of them, and each passing of the token was
    taken."""
    made, held = set(), [set() for _ in range(sites)]
    for how, name, site in (found.groups() for found in map(HAS.search, entries) if found):
        held[int(site)].add(name)
        if how != "applied":
            made.add(name)
    passings = sorted(found.groups() for found in map(TOKEN.search, entries) if found)
    passed, taken = ([epoch for how, epoch in passings if how == it] for it in ("passed", "taken"))
    return made != set() and all(names == made for names in held) and passed == taken


def tellers_run(program, sites, tellers, version):
    """Whether a run of tellers makes a hundred calls of each, and every site catches up, and an audit accepts it."""
    words = ["threads", "--sites", str(sites), "--tellers", str(tellers), "--seed", "7"]
    run = subprocess.run([program, *words], capture_output=True)
    audit = subprocess.run([program, "audit"], input=run.stdout, capture_output=True)
    bank, *entries = run.stdout.decode().splitlines()
    calls = sum(bool(CALL.match(line)) for line in entries)
    right = bank == f'{TELLERS_BANK},"sites":{sites},"version":{version}}}' and calls == 100 * tellers
    answered = (run.returncode, audit.returncode) == (0, 0) and audit.stdout.startswith(b'{"order":[')
    return right and answered and catches_up(entries, sites)


class Records:
    """A script whose calls are told apart: each piece that is sent is one read, and each that comes is one write."""

    def __init__(self, program):
        self.given, given = socket.socketpair(socket.AF_UNIX, socket.SOCK_SEQPACKET)
        self.out, out = socket.socketpair(socket.AF_UNIX, socket.SOCK_SEQPACKET)
        self.given.settimeout(SECONDS)
        self.out.settimeout(SECONDS)
        self.run = subprocess.Popen([program, "script"], stdin=given, stdout=out, stderr=subprocess.DEVNULL)
        given.close()
        out.close()

    def send(self, pieces):
        for piece in pieces:
            self.given.send(piece)
        self.given.shutdown(socket.SHUT_WR)

    def rest(self):
        """Each write up to the end, and the status."""
        writes = list(iter(lambda: self.out.recv(LINE_LIMIT), b""))
        self.given.close()
        return writes, self.run.wait(SECONDS)


def pieces_of(text, size):
    return [text[at:at + size] for at in range(0, len(text), size)]


def read_and_written(program):
    """A script is answered the same in pieces of each size. Its replies go out before the next read, and nothing is
    read behind a bad line. Many lines take few writes."""
    text, out = (from_rows.rows()["deposit_reaches_the_other_site"][n].encode() for n in (0, 1))
    for size in (1, 2, 5, 4096):
        records = Records(program)
        records.send(pieces_of(text, size))
        writes, status = records.rest()
        yield f"pieces of {size} bytes", (b"".join(writes), status) == (out, 0)
    # The first piece ends in the third command.
    records = Records(program)
    records.given.send(text[:110])
    two, four = records.out.recv(LINE_LIMIT), out.split(b"\n", 2)[2]
    records.send([text[110:]])
    yield "replies go out before the next read", two + four == out and records.rest() == ([four], 0)
    records = Records(program)
    first, reply = b"\n".join(text.splitlines()[:2]), out.splitlines(keepends=True)[0]
    records.given.send(first + b"\ndeposit\n")
    yield "nothing is read behind a bad line", records.rest() == ([reply], 2)
    pieces = pieces_of("\n".join([BANK, *[BALANCE] * 10_000]).encode(), 4096)
    records = Records(program)
    sending = threading.Thread(target=records.send, args=[pieces])
    sending.start()
    writes, status = records.rest()
    sending.join()
    same = b"".join(writes) == b'{"balance":0}\n' * 10_000 and status == 0
    yield "many lines take few writes", same and len(writes) <= len(pieces) + 3


def is_example():
    """Whether the run of examples/ is the one of the same sites and seed that is made here."""
    with open(os.path.join(EXAMPLES, "histories", "tellers.histories.jsonl"), encoding="utf-8") as file:
        return file.read() == one_teller.text(2, 0)


def results(program):
    """Each case with whether it is as wanted."""
    for case in [*written_down(), *made_here()]:
        yield case.name, passes(program, case)
    for name, *run in TELLERS:
        yield name, tellers_run(program, *run)
    yield from read_and_written(program)
    yield "example of one teller", is_example()


if __name__ == "__main__":
    sys.exit(report.run(__doc__, results))
