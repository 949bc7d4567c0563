#!/usr/bin/env python3
"""Runs sites over pipes with examples/tools/wire.py, gives all of them deposits at once, stops one for a while, and
starts each again with all that it sends: nothing freezes, and in the end all have the same balance.

usage: wires.py [--quiet] [--gate] [--deposits N] [--stop SECONDS] [--wire PATH] [--alone] [--patience SECONDS] PROGRAM

Two sites, and then three, have N deposits each, 20,000 if it isn't given, which come all at once. The last site has
its own first, and is stopped by SIGSTOP as it has answered one, for 2 seconds if it isn't given; the others get theirs
then, and have to answer all of them meanwhile. More messages than the pipes take and may wait are dropped, and have to
come again without a restart: at two sites all are applied then. At three, a site that held as many operations as it may
refuses more (16), so that some are lost; when their sender starts again it sends them all again. At the end an audit
orders the journals.

Before that, wire.py alone: a command that ends over and over, of its own accord or by SIGKILL; a reader of the replies
and a command that take nothing for a while; messages that are dropped, and asked for again; whose each reply is; an
older copy of a journal. --wire names another wire.py to be tried, and --patience the seconds after which something
counts as frozen, 60. tests/wire_mutants.py tries wrong ones. --gate takes 2,000 deposits and half a second, and only
two sites.
"""
import argparse
import fcntl
import json
import os
import re
import shutil
import signal
import subprocess
import sys
import tempfile
import threading
import time

from site_process import compact, words_of_start

ROOT = os.path.dirname(os.path.dirname(os.path.abspath(__file__)))
WIRE = os.path.join(ROOT, "examples", "tools", "wire.py")
PATIENCE = [60.0]  # seconds without anything new, after which all of it counts as frozen
MAY_WAIT = 10  # the part of a site's deposits that may wait for another one as messages
PIPE_BUF = 4096  # bytes that a pipe takes whole, whoever else writes into it
NAME = "a" * 32  # of the one account: long, so that the pipes take few messages
DEPOSIT = b'{"deposit":["%s",1]}\n' % NAME.encode()
BALANCE = b'{"balance":"%s"}\n' % NAME.encode()
WHOSE = {"kind": "client", "balance": "client", "held": "peer", "already": "peer", "refused 16": "peer",
         "applied": "then"}
CAME = ("already", "held", "refused 16")  # what messages are answered


class Failed(Exception):
    """What isn't as it has to be."""


class Clock:
    """Waits for something to happen, for as long as something goes on."""

    def __init__(self):
        self.seen, self.since = None, time.monotonic()

    def look(self, seen, what):
        """Fails if what is seen has been the same for too long."""
        if seen != self.seen:
            self.seen, self.since = seen, time.monotonic()
        if time.monotonic() - self.since > PATIENCE[0]:
            raise Failed(f"frozen: {what}: {seen}")
        time.sleep(0.02)


class Replies:
    """The file of a site's replies, each with whose it is, and how many there are of each kind."""

    def __init__(self, path):
        self.path, self.at, self.count, self.balance = path, 0, {}, None

    def read(self):
        """Counts the whole lines that are new."""
        if not os.path.exists(self.path):
            return self.count
        with open(self.path, "rb") as file:
            file.seek(self.at)
            data = file.read()
        data = data[:data.rfind(b"\n") + 1]
        self.at += len(data)
        for line in data.splitlines():
            [(whose, reply)] = json.loads(line).items()
            kind = f"refused {reply['refused']}" if "refused" in reply else next(iter(reply))
            if WHOSE.get(kind) != whose:
                raise Failed(f"a reply is said to be of a {whose}: {reply}")
            self.count[kind] = self.count.get(kind, 0) + 1
            self.balance = reply.get("balance", self.balance)
        return self.count

    def of(self, *kinds):
        count = self.read()
        return sum(count.get(kind, 0) for kind in kinds)


class Site:
    """A site, what brings its lines, and what carries its messages."""

    def __init__(self, bank, number):
        self.bank, self.number = bank, number
        self.path = os.path.join(bank.folder, f"to{number}")
        os.mkfifo(self.path)
        self.pipe = os.open(self.path, os.O_RDWR)
        fcntl.fcntl(self.pipe, fcntl.F_SETPIPE_SZ, PIPE_BUF)  # so that few messages wait in it for a stopped site
        self.journal = os.path.join(bank.folder, f"{number}.journal")
        self.replies = Replies(os.path.join(bank.folder, f"{number}.replies"))
        self.said = os.path.join(bank.folder, f"{number}.said")  # by its wire
        self.parts = []

    def start(self):
        to = f"grep --line-buffered '' > {self.bank.folder}/to{{}}"
        wire = [sys.executable, self.bank.wire, "--me", str(self.number), "--sites", str(self.bank.sites), "--to", to,
                "--apart", "--resend", "1", "--most", str(max(1, self.bank.deposits // MAY_WAIT))]
        bring = ["sh", "-c", 'echo "$0"; exec cat "$1"', self.bank.config, self.path]
        brings = subprocess.Popen(bring, stdout=subprocess.PIPE)
        runs = subprocess.Popen(words_of_start(self.bank.program, self.number, self.journal), stdin=brings.stdout,
                                stdout=subprocess.PIPE)
        with open(self.replies.path, "ab") as replies, open(self.said, "ab") as said:
            carries = subprocess.Popen(wire, stdin=runs.stdout, stdout=replies, stderr=said)
        brings.stdout.close()
        runs.stdout.close()
        self.parts = [brings, runs, carries]

    def give(self, line, count):
        """Writes a line many times, whole lines at once."""
        at_once = PIPE_BUF // len(line)
        while count:
            number = min(count, at_once)
            os.write(self.pipe, line * number)
            count -= number

    def dropped(self, number):
        """How many messages for this site were said to be dropped."""
        with open(self.said, encoding="utf-8") as file:
            return sum(map(int, re.findall(rf"^wire: site {number}: (\d+) messages dropped", file.read(), re.M)))

    def signal(self, number):
        self.parts[1].send_signal(number)

    def end(self, by):
        """Ends the site, by a signal or at the end of its input, and waits for what carries its messages."""
        brings, runs, carries = self.parts
        if by == signal.SIGKILL:
            runs.kill()
        brings.kill()
        brings.wait()
        status, clock = runs.wait(PATIENCE[0]), Clock()
        while carries.poll() is None:
            clock.look(None, f"site {self.number} has ended, and its wire hasn't")
        if status not in (0, -by) or carries.returncode != 0:
            raise Failed(f"site {self.number} ended in {status}, its wire in {carries.returncode}")

    def stop(self):
        for part in self.parts:
            if part.poll() is None:
                part.kill()
                part.wait()
        os.close(self.pipe)


class Bank:
    """Some sites over pipes."""

    def __init__(self, asked, folder, sites):
        self.program, self.wire, self.folder, self.sites = os.path.abspath(asked.program), asked.wire, folder, sites
        self.deposits, self.seconds = asked.deposits, asked.stop
        self.config = compact({"accounts": [[NAME, 0]], "sites": sites, "version": 1})
        self.all = [Site(self, number) for number in range(sites)]

    def replies(self):
        """What all sites replied, by its kind: what shows whether anything goes on."""
        return [dict(site.replies.read()) for site in self.all]

    def wait(self, done, what):
        clock = Clock()
        while not done():
            clock.look(self.replies(), what)

    def give(self, sites):
        """Begins to give these sites their deposits."""
        for site in sites:
            threading.Thread(target=site.give, args=(DEPOSIT, self.deposits), daemon=True).start()

    def deposit(self):
        """Gives the last site its deposits and stops it, and starts it again when the others have answered theirs."""
        *others, last = self.all
        for site in self.all:
            site.start()
        self.give([last])
        self.wait(lambda: last.replies.of("kind") > 0, "the first reply")
        last.signal(signal.SIGSTOP)
        before, until = last.replies.of("kind"), time.monotonic() + self.seconds
        try:
            self.give(others)
            self.wait(lambda: all(site.replies.of("kind") == self.deposits for site in others)
                      and time.monotonic() > until, f"site {last.number} is stopped, and the others go on")
        finally:
            last.signal(signal.SIGCONT)
        self.wait(lambda: last.replies.of("kind") == self.deposits, "the stopped site goes on")
        return before

    def settled(self):
        """Whether every site has held each operation of the others that it didn't refuse. Two sites refuse none, since
        an operation rests on those alone that came before it."""
        if any(site.replies.of("held", "refused 16") < (self.sites - 1) * self.deposits for site in self.all):
            return False
        return self.sites > 2 or all(site.replies.of("applied") == self.deposits for site in self.all)

    def again(self):
        """Starts each site again with all that it sends, until all sites have all. How many rounds that took."""
        for number in range(1, 9):
            for site in self.all:
                seen = [other.replies.of(*CAME) for other in self.all]
                site.end(signal.SIGKILL)
                site.start()
                self.wait(lambda: all(
                    other.replies.of(*CAME) >= before + self.deposits
                    for before, other in zip(seen, self.all) if other is not site),
                    f"site {site.number} sends all again")
            if all(site.replies.of("applied") == (self.sites - 1) * self.deposits for site in self.all):
                return number
        raise Failed("what was sent again and again isn't applied everywhere")

    def compare(self):
        """All sites have the same balance, and an audit orders their journals."""
        for site in self.all:
            before = site.replies.of("balance")
            site.give(BALANCE, 1)
            self.wait(lambda: site.replies.of("balance") > before, "a balance")
            if site.replies.balance != self.sites * self.deposits:
                raise Failed(f"site {site.number} has {site.replies.balance} and not {self.sites * self.deposits}")
        for site in self.all:
            site.end(0)
        run = subprocess.run([self.program, "audit", *(site.journal for site in self.all)], capture_output=True)
        if run.returncode != 0:
            raise Failed(f"the audit says {run.stdout[:200]} {run.stderr[:200]}")
        return len(json.loads(run.stdout)["order"])


def run_bank(asked, sites):
    """A bank of these sites, from the first deposit to the audit. What it did."""
    with tempfile.TemporaryDirectory(prefix="wires-") as folder:
        bank, begun = Bank(asked, folder, sites), time.monotonic()
        try:
            before = bank.deposit()
            bank.wait(bank.settled, "the messages arrive")
            dropped = [site.dropped(sites - 1) for site in bank.all[:-1]]
            if not all(dropped):
                raise Failed(f"of the messages for the site that was stopped, dropped: {dropped}")
            refused = sum(site.replies.of("refused 16") for site in bank.all)
            rounds = bank.again()
            entries = bank.compare()
        finally:
            for site in bank.all:
                site.stop()
    return (f"{sites} sites: {sites * asked.deposits:,} deposits at once; site {sites - 1} was stopped for "
            f"{asked.stop:g} s or more after {before:,} of its own, and the others went on.\n"
            f"  {sum(dropped):,} messages for it were dropped, and came again.\n"
            f"  {refused:,} messages were refused by a full inbox. Restarts of each, with all sends: {rounds}.\n"
            f"  The same balance everywhere; an audit orders {entries:,} entries; {time.monotonic() - begun:.1f} s")


class Alone:
    """wire.py alone, from a site's lines to one command, each with a message and a reply."""

    def __init__(self, asked, folder, count):
        self.wire, self.out = asked.wire, os.path.join(folder, "out")
        self.messages = [b'{"shadow":{"name":"B0.%d"}}\n' % number for number in range(count)]
        self.replies = [b'{"name":"B0.%d"}\n' % number for number in range(count)]
        lines = zip(self.replies, self.messages)
        self.text = b"".join(b'{"reply":%s,"sends":[%s],"then":[]}\n' % (one[:-1], two[:-1]) for one, two in lines)

    def start(self, command, *more):
        words = [sys.executable, self.wire, "--me", "0", "--sites", "2", *more]
        words += ["--to", command.replace("OUT", self.out)]
        return subprocess.Popen(words, stdin=subprocess.PIPE, stdout=subprocess.PIPE, stderr=subprocess.DEVNULL)

    def delivered(self):
        if not os.path.exists(self.out):
            return []
        with open(self.out, "rb") as file:
            return file.read().splitlines(keepends=True)

    def run(self, command, *more):
        """Gives it all. What was delivered, and whether the replies are there and the status is 0."""
        run = self.start(command, *more)
        try:
            replies, _ = run.communicate(self.text, timeout=PATIENCE[0])
        except subprocess.TimeoutExpired:
            run.kill()
            raise Failed(f"frozen: {command}") from None
        return self.delivered(), replies.splitlines(keepends=True) == self.replies and run.returncode == 0


def ended_command(asked, folder):
    """A command that ends after 100 lines, over and over: each line arrives once, in order."""
    alone = Alone(asked, folder, 1000)
    return alone.run("sed -u 100q >> OUT") == (alone.messages, True)


def killed_command(asked, folder):
    """A command that is killed after 100 lines and had read more: each line that it didn't confirm comes again."""
    alone = Alone(asked, folder, 350)
    again = "[ -e OUT.2 ] && exec tee -a OUT; [ -e OUT.1 ] && : > OUT.2; : > OUT.1"
    delivered, fine = alone.run(again + '; head -n 100 >> OUT; yes "" | head -n 100; kill -9 $$', "--confirm")
    return fine and list(dict.fromkeys(delivered)) == alone.messages


def slow_readers(asked, folder):
    """Neither a command nor a reader of the replies that takes nothing keeps the site waiting, or the other."""
    alone = Alone(asked, folder, 30_000)
    run = alone.start(f"while [ -d {folder} ] && [ ! -e {folder}/go ]; do sleep 0.1; done; cat > OUT")
    giver = threading.Thread(target=lambda: (run.stdin.write(alone.text), run.stdin.close()), daemon=True)
    giver.start()
    try:
        giver.join(PATIENCE[0])
        given = not giver.is_alive()
        with open(os.path.join(folder, "go"), "wb"):
            pass
        clock = Clock()
        while given and len(alone.delivered()) < len(alone.messages):
            clock.look(len(alone.delivered()), "a command that is slow")
        return given and alone.delivered() == alone.messages and (
            run.stdout.read().splitlines(keepends=True) == alone.replies) and run.wait(PATIENCE[0]) == 0
    finally:
        run.kill()
        run.wait()


class Pretended:
    """A site with two others, whose wire may have 200 messages wait for each. Site 1 takes nothing unless the file `go`
    is there. A question gets into the file `asked`, and is answered by what a site sends again."""

    def __init__(self, asked, folder):
        self.folder, self.alone = folder, Alone(asked, folder, 6_000)
        command = (f"case {{}} in 0) exec cat >> {folder}/asked;; 2) exec cat > OUT.2;; esac; while read -r line; "
                   f"do while [ -d {folder} ] && [ ! -e {folder}/go ]; do sleep 0.1; done; echo \"$line\"; done > OUT")
        self.run = self.alone.start(command, "--sites", "3", "--most", "200", "--resend", "0.3")
        self.lines, self.answered = self.alone.text.splitlines(keepends=True), 0

    def give(self, first, last):
        """Gives some of the site's answers, by 100, and waits each time for their replies, and for site 2 to have their
        messages. Whether the replies are as they have to be."""
        came = []
        for begin in range(first, last, 100):
            self.write(b"".join(self.lines[begin:begin + 100]))
            came += [self.run.stdout.readline() for _ in range(100)]
            while len(self.delivered("out.2")) < begin + 100 and self.run.poll() is None:
                time.sleep(0.002)
        return came == self.alone.replies[first:last]

    def write(self, data):
        self.run.stdin.write(data)
        self.run.stdin.flush()

    def questions(self):
        """The numbers of the questions so far."""
        path = os.path.join(self.folder, "asked")
        if not os.path.exists(path):
            return []
        with open(path, "rb") as file:
            return [json.loads(line)["resend"] for line in file]

    def go(self, is_going=True):
        """Has site 1 take messages, or no more."""
        path = os.path.join(self.folder, "go")
        if is_going:
            with open(path, "wb"):
                pass
        else:
            os.remove(path)

    def answer(self):
        """Answers the questions that are new."""
        for number in self.questions()[self.answered:]:
            self.answered += 1
            again = self.alone.messages[-min(number, len(self.alone.messages)):]
            self.write(b"".join(b'{"sends":[%s]}\n' % it[:-1] for it in again)
                       + b'{"reply":{"resent":%d},"sends":[],"then":[]}\n' % len(again))

    def delivered(self, name):
        path = os.path.join(self.folder, name)
        if not os.path.exists(path):
            return []
        with open(path, "rb") as file:
            return file.read().splitlines(keepends=True)


def dropped_messages(asked, folder):
    """Messages that don't fit are dropped, and nothing is asked while none is taken; once they are, all come again,
    some in another turn, in order, to this site alone, and the replies are those of clients alone."""
    site = Pretended(asked, folder)
    guard = threading.Timer(PATIENCE[0], site.run.kill)
    guard.start()
    try:
        fine = site.give(0, 5_900)
        time.sleep(1.5)
        fine = fine and not site.questions()
        site.go()
        while not site.questions() and site.run.poll() is None:
            time.sleep(0.02)
        site.go(False)
        fine = site.give(5_900, 6_000) and fine
        site.answer()  # by more than fits
        site.go()
        while len(site.delivered("out")) < len(site.lines) and site.run.poll() is None:
            site.answer()
            time.sleep(0.02)
        site.run.stdin.close()
        return (fine and not site.run.stdout.read() and site.run.wait(PATIENCE[0]) == 0 and site.answered > 0
                and site.delivered("out") == site.delivered("out.2") == site.alone.messages)
    except OSError:
        return False
    finally:
        guard.cancel()
        site.run.kill()
        site.run.wait()


def whose_replies(asked, folder):
    """With --apart each reply says whether it is a client's, another site's or an application's."""
    alone = Alone(asked, folder, 0)
    alone.text = b"".join(b'{%s"reply":%s,"sends":[],"then":[%s]}\n' % it for it in (
        (b'"again":true,"id":"a",', b'{"kind":"deposit","name":"B0.1"}', b""), (b"", b'{"held":"B1.1"}',
        b'{"applied":"B1.1"},{"refused":10}'), (b"", b'{"refused":16}', b""), (b'"id":"b",', b'{"refused":8}', b"")))
    alone.text += b'{"bad":"line","line":6}\n'
    alone.replies = [line + b"\n" for line in (
        b'{"again":true,"client":{"kind":"deposit","name":"B0.1"},"id":"a"}', b'{"peer":{"held":"B1.1"}}',
        b'{"then":{"applied":"B1.1"}}', b'{"then":{"refused":10}}', b'{"peer":{"refused":16}}',
        b'{"client":{"refused":8},"id":"b"}', b'{"client":{"bad":"line","line":6}}')]
    return alone.run("cat > OUT", "--apart") == ([], True)


def older_copy(asked, folder):
    """That a site was started from an older copy of its journal is said once, by its number, where its messages are
    refused; of several others each may be it."""
    config = compact({"accounts": [["ann", 0]], "sites": 2, "version": 1})
    journals = [os.path.join(folder, f"{number}.journal") for number in (0, 1)]

    def answers(number, *events):
        given = "".join(compact(event) + "\n" for event in events)
        return subprocess.run(words_of_start(asked.program, number, journals[number], 0), input=f"{config}\n{given}",
                              capture_output=True, text=True, timeout=PATIENCE[0]).stdout

    answers(0)
    copy = shutil.copy(journals[0], os.path.join(folder, "copy"))
    first = json.loads(answers(0, {"deposit": ["ann", 5]}))["sends"]
    shutil.copy(copy, journals[0])
    second = json.loads(answers(0, {"deposit": ["ann", 7]}))["sends"]
    answered = answers(1, *first, *first, *second, *second)
    for sites, senders in (2, "0"), (4, "0 or 2 or 3"):
        words = [sys.executable, asked.wire, "--me", "1", "--sites", str(sites), "--to", "cat"]
        run = subprocess.run(words, input=answered, capture_output=True, text=True, timeout=PATIENCE[0])
        if run.stdout.count('{"refused":18}') != 2 or run.stderr != (
                f"wire: an older copy of the journal of site {senders} was started, or there is a second token: site 1 "
                "has another operation of a name that came (18)\n"):
            return False
    return True


ALONE = [ended_command, killed_command, slow_readers, dropped_messages, whose_replies, older_copy]


def options():
    reader = argparse.ArgumentParser(description=__doc__, formatter_class=argparse.RawDescriptionHelpFormatter)
    reader.add_argument("program", metavar="PROGRAM", help="a built rbbank")
    reader.add_argument("--deposits", metavar="N", type=int, default=20_000, help="of each site, 20,000")
    reader.add_argument("--stop", metavar="SECONDS", type=float, default=2, help="how long a site is stopped, 2")
    reader.add_argument("--wire", metavar="PATH", default=WIRE, help="another wire.py")
    reader.add_argument("--alone", action="store_true", help="try wire.py alone, without sites")
    reader.add_argument("--patience", metavar="SECONDS", type=float, default=60, help="with what is frozen, 60")
    reader.add_argument("--quiet", action="store_true", help="print only what failed")
    reader.add_argument("--gate", action="store_true", help="take less of all")
    asked = reader.parse_args()
    if asked.gate:
        asked.deposits, asked.stop = 2_000, 0.5
    if not os.access(asked.program, os.X_OK) or os.path.isdir(asked.program):
        reader.error(f"{asked.program}: no program")
    return asked


def main():
    asked, fine = options(), True
    PATIENCE[0] = asked.patience
    for part in ALONE:
        with tempfile.TemporaryDirectory(prefix="wires-") as folder:
            try:
                same = part(asked, folder)
            except Failed as why:
                print(f"wires: {why}", flush=True)
                same = False
        fine = fine and same
        if not same or not asked.quiet:
            print("same     " if same else "DIFFERENT", part.__doc__.rstrip("."), flush=True)
    for sites in () if asked.alone else (2,) if asked.gate else (2, 3):
        try:
            happened = run_bank(asked, sites)
        except Failed as why:
            print(f"wires: {sites} sites: {why}", flush=True)
            fine = False
        else:
            if not asked.quiet:
                print(happened, flush=True)
    return 0 if fine else 1


if __name__ == "__main__":
    sys.exit(main())
