#!/usr/bin/env python3
"""Refuses each allocation in turn: of the program on four scripts, a migration, three sites and a run of one teller,
and of five tests.

usage: refuse.py PROGRAM TESTS RUNS             (what `rt run` built in crates/rbbank/out, and `rt test` in
                                                 crates/rb_tests/out and crates/rb_tests_runs/out)
       refuse.py --gate PROGRAM TESTS RUNS      (as `rt ci` leaves them there: the sites and four of the tests alone,
                                                 and nothing is printed if all is well)

A test can't have an allocator of its own, so a small library (refuse_nth.c) is loaded before the C library. A process
is run with its first allocation refused, another with its second, and so on until a run meets no refusal. The program
has to write a prefix of what is expected and end in status 4, or all of it in status 0. A site is started again then
on its journal, with the lines that weren't answered: each is answered as if it were asked for the first time, or again
if its entry was in the journal, and the journal is what it would have been. A test has to pass, and may say
that it was stopped only if an allocation was refused; its last run shows that nothing else stops it. Ends in status 1
if a run does otherwise, and if no run of an input was stopped on the way, or none inside a batch.

A run of one teller writes nothing before it ends in status 4. Its threads take memory in an order that differs from
run to run. If it was a link that was refused memory, one message is lost, and the other site goes on without it.

The tests (crates/rb_tests/src/refused.rt, money.rt; crates/rb_tests_runs/src/scripts.rt, seats.rt):
  refuse_each                 four rows by World::run: the world is that of the events before, and answers the rest as
                              the row says; some refusals fall inside a batch
  refuse_script               a row by run_script: what is written is a prefix of the row's replies
  reserved                    with capacity for three operations none of applying, rewinding, going forward and undoing
                              asks for memory
  memory_is_looked_at_last    a fault of a configuration is answered with or without memory; one without a fault is
                              made, or answered by out of memory
  refuse_seats                a row through seats: after a refusal the seat has no receipt more, and the same call is
                              answered as if it were the first
"""
import itertools
import os
import re
import shutil
import subprocess
import sys
import tempfile

import one_teller

HERE = os.path.dirname(os.path.abspath(__file__))
EXAMPLES = os.path.join(os.path.dirname(HERE), "examples")
ROWS = [
    "deposit_reaches_the_other_site",
    "two_cancels_of_one_withdrawal",
    "batch_all_or_nothing",
    "as_of_each_position",
]
# what the program is run on, and by which command
RUNS = [(f"scripts/{name}", "script") for name in ROWS] + [("migrations/migrated_history.migration", "migrate")]
# sites that are asked by ids, of examples/sites: what is kept of an id is in each answer
SITES = ["asked_twice", "full_with_ids", "refused_then_made"]
ONE_TELLER = (2, 0)  # the sites and the seed of a run of one teller
SECONDS = 60


class Refuser:
    """Runs commands with one of their allocations refused."""

    def __init__(self, folder):
        if shutil.which("cc") is None:
            sys.exit("refuse: there is no C compiler, cc")
        self.library = os.path.join(folder, "refuse_nth.so")
        self.mark = os.path.join(folder, "refused")
        source = os.path.join(HERE, "refuse_nth.c")
        build = ["cc", "-shared", "-fPIC", "-O1", "-o", self.library, source, "-ldl"]
        subprocess.run(build, check=True)

    def runs(self, command, text=b""):
        """What each run ended with, the first allocation refused, then the second and so on. The last
        run met no refusal."""
        for nth in itertools.count(1):
            env = {"LD_PRELOAD": self.library, "REFUSE_NTH": str(nth), "REFUSE_MARK": self.mark}
            try:
                run = subprocess.run(
                    command, input=text, capture_output=True, env=env, timeout=SECONDS
                )
            except subprocess.TimeoutExpired:
                sys.exit(f"refuse: {' '.join(command)}: allocation {nth}: no end in {SECONDS} s")
            if not os.path.exists(self.mark):
                yield nth, run, False
                return
            os.remove(self.mark)
            yield nth, run, True


def fail(what, nth, run):
    text = (run.stdout + run.stderr).decode(errors="replace")
    sys.exit(f"refuse: {what}: allocation {nth}: status {run.returncode}\n{text}")


def program_on(refuser, program, name, command):
    """The program on an input. The number of refusals."""
    with open(os.path.join(EXAMPLES, name + ".jsonl"), "rb") as file:
        text = file.read()
    with open(os.path.join(EXAMPLES, name + ".expected"), "rb") as file:
        whole = file.read()
    refusals = stopped = midway = 0
    for nth, run, refused in refuser.runs([program, command], text):
        wrote_all = run.returncode == 0 and run.stdout == whole and run.stderr == b""
        gave_up = run.returncode == 4 and run.stderr == b"rbbank: out of memory\n"
        if not wrote_all and not (refused and gave_up and whole.startswith(run.stdout)):
            fail(name, nth, run)
        refusals += refused
        stopped += gave_up
        midway += gave_up and b"" != run.stdout != whole
    print(f"{name}: {refusals} refusals, {stopped} runs stopped, {midway} of them midway in the text")
    if midway == 0:
        sys.exit(f"refuse: {name}: no run was stopped midway")
    return refusals


def stored(name):
    """A file of examples/sites."""
    with open(os.path.join(EXAMPLES, "sites", name), "rb") as file:
        return file.read()


def without_again(answers):
    """Answers that don't say which of them were given before."""
    return answers.replace(b'"again":true,', b"")


def goes_on(words, lines, run):
    """What a site that was stopped answered, with what it answers to the other lines once it is started again."""
    done = run.stdout.count(b"\n")
    begun = os.path.exists(words[words.index("--journal") + 1])
    words = [word for word in words if word != "--new" or not begun]
    again = subprocess.run(words, input=b"".join(lines[:1] + lines[1 + done:]), capture_output=True)
    return run.stdout + again.stdout, again.returncode


def site_on(refuser, say, program, name):
    """A site of the program. The number of refusals."""
    words, lines = stored(f"{name}.site.words").decode().split(), stored(f"{name}.site.jsonl").splitlines(keepends=True)
    whole, entries = stored(f"{name}.site.expected"), stored(f"{name}.site.journal")
    journal = os.path.join(os.path.dirname(refuser.mark), "journal")
    words = [program, "site", *words, "--journal", journal, "--resend", "0"]
    refusals = stopped = 0
    for nth, run, refused in refuser.runs(words, b"".join(lines)):
        answers, status, gave_up = run.stdout, run.returncode, run.stderr == b"rbbank: out of memory\n"
        if refused and gave_up and status == 4:
            answers, status = goes_on(words, lines, run)
        with open(journal, "rb") as file:
            kept = file.read()
        os.remove(journal)
        same = answers == whole or gave_up and without_again(answers) == without_again(whole)
        if not same or status != 0 or kept != entries:
            fail(name, nth, run)
        refusals += refused
        stopped += gave_up
    say(f"{name}: {refusals} refusals, {stopped} runs stopped")
    if stopped == 0:
        sys.exit(f"refuse: no line of {name} was stopped")
    return refusals


def one_teller_on(refuser, program):
    """The program for a run of one teller. The number of refusals."""
    sites, seed = map(str, ONE_TELLER)
    whole = one_teller.text(*ONE_TELLER)
    messages = len(one_teller.Teller(*ONE_TELLER).sent)
    one_lost = {one_teller.text(*ONE_TELLER, lost).encode() for lost in range(messages)}
    refusals = stopped = lost = 0
    for nth, run, refused in refuser.runs([program, "threads", "--sites", sites, "--tellers", "1", "--seed", seed]):
        wrote = (run.returncode, run.stderr) == (0, b"")
        wrote_all = wrote and run.stdout == whole.encode()
        lost_one = wrote and run.stdout in one_lost
        gave_up = (run.returncode, run.stdout, run.stderr) == (4, b"", b"rbbank: out of memory\n")
        if not wrote_all and not (refused and (gave_up or lost_one)):
            fail("one teller", nth, run)
        refusals += refused
        stopped += gave_up
        lost += lost_one
    print(f"one teller: {refusals} refusals, {stopped} runs stopped, a message lost in {lost}")
    if stopped == 0:
        sys.exit("refuse: no run of one teller was stopped")
    return refusals


def test(refuser, say, tests, name):
    """A test. The number of refusals, and where they stopped it, as it says: a row, and what came there."""
    refusals, stops = 0, []
    for nth, run, refused in refuser.runs([tests, name]):
        said = re.findall(r"^(\w+) stopped where it (.*)$", run.stdout.decode(), re.M)
        passed = run.returncode == 0 and run.stdout.endswith(b"test result: ok\n")
        if not passed or len(said) > refused:
            fail(name, nth, run)
        refusals += refused
        stops += said
    say(f"{name}: {refusals} refusals, {len(stops)} runs stopped")
    return refusals, stops


def of_the_gate(refuser, say, program, tests, runs):
    """The sites and the tests of the gate. The number of refusals."""
    sites = sum(site_on(refuser, say, program, "site_" + name) for name in SITES)
    each, stops = test(refuser, say, tests, "refused::refuse_each")
    for name in ROWS:
        count = sum(row == name for row, _ in stops)
        say(f"  {name}: {count} runs stopped")
        if count == 0:
            sys.exit(f"refuse: no run of {name} was stopped")
    inside = sum('{"names":' in what for _, what in stops)
    say(f"  inside a batch that is made: {inside} runs stopped")
    if inside == 0:
        sys.exit("refuse: no run was stopped inside a batch")
    text, stops = test(refuser, say, runs, "scripts::refuse_script")
    if not stops:
        sys.exit("refuse: no script was stopped")
    # It is never stopped: it needs no memory beyond what it takes first.
    room, _ = test(refuser, say, tests, "refused::reserved")
    calls, stops = test(refuser, say, runs, "seats::refuse_seats")
    if not stops:
        sys.exit("refuse: no call of a seat was refused")
    return sites + each + text + room + calls


def main():
    in_gate, paths = sys.argv[1:2] == ["--gate"], [word for word in sys.argv[1:] if word != "--gate"]
    if len(paths) != 3:
        sys.exit(__doc__)
    program, tests, runs = map(os.path.abspath, paths)
    with tempfile.TemporaryDirectory() as folder:
        refuser = Refuser(folder)
        if in_gate:
            of_the_gate(refuser, lambda _: None, program, tests, runs)
            return
        refusals = sum(program_on(refuser, program, name, command) for name, command in RUNS)
        refusals += one_teller_on(refuser, program)
        refusals += of_the_gate(refuser, print, program, tests, runs)
        # It is never stopped: it looks at faults alone.
        refusals += test(refuser, print, tests, "money::memory_is_looked_at_last")[0]
    print(f"{refusals} refusals tried, and all is as it has to be")


main()
