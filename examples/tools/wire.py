#!/usr/bin/env python3
"""Carries what a site sends: reads the lines that `rbbank site` writes, and gives each message to the sites it is for.

For each other site a command is started, which takes its messages on standard input, a line each. Its `{}` is the other
site's number. By pipes, by a broker and by ssh:

    rbbank site .. | wire.py --me 0 --sites 3 --to "grep --line-buffered '' > to{}"
    rbbank site .. | wire.py --me 0 --sites 3 --to 'mosquitto_pub -q 1 -l -t bank/{}'
    rbbank site .. | wire.py --me 0 --sites 3 --to "ssh host{} \\"grep --line-buffered '' > bank/in\\""

(`grep` writes whole lines. `cat` may write the first part of one, and then what another process writes into the same
pipe comes between its parts.)

The replies go to standard output, a line each; those of the applications after them. With --apart a line says whose
reply it is: {"client":R} of a request or a question, with the `id` and `again` of its answer, {"peer":R} of a message
of another site, {"then":R} of an application. (A refusal 23 or 26 without an id may be a message's as well.)

The site is never kept waiting: each command, and the reader of the replies, has a thread of its own. For each site up
to --most messages wait, and some 64 MiB of them; replies wait without a bound, past 10,000 of them or 8 MiB in a file
of the folder for temporary files. A message that doesn't fit is dropped, and so is each later one for this site, so
that what it is given has no gap. Each --resend seconds standard error says how many. If half of the bound is free by
then, the site is asked for its messages from the first that was dropped on, by a line {"resend":N}, which the command
brings whose {} is the site's own number; as many as fit wait then, and the others another turn. No other site is given
them again.

A command that ended is started again, and is given again the lines that it hadn't confirmed. A line is confirmed once
the command has read it whole; with --confirm, once the command has written a line of its own to standard output, one
for each that it delivered. What it read and lost is made up for when the site starts again, since a site then sends all
its messages again.

If the site refuses a message with 18, standard error says so once, and which sites may have sent it: an older copy of
the sender's journal was started, or there is a second token.

After the site's last line, what still waits is given on. The status is 1 if a command, or the reader of the replies,
takes nothing for the seconds of --wait, or ended in another status than 0 after its last line, or if a message was
dropped and didn't come again.
"""
import argparse
import collections
import contextlib
import fcntl
import json
import os
import select
import signal
import struct
import subprocess
import sys
import tempfile
import termios
import threading
import time
from typing import Any, BinaryIO, Deque, Dict, List, NamedTuple, Optional, Sequence, Tuple

MOST_MESSAGES = 100_000  # that wait for one site, if --most doesn't say another number
MOST_MESSAGE_BYTES = 64 << 20  # of these messages
MOST_REPLIES = 10_000  # that wait in memory; what is more goes to a file
MOST_REPLY_BYTES = 8 << 20  # of these replies
ALL = 100_000_000  # entries, the most that a site is asked for, and the most that it has
UNSEEN = 1_000  # entries that a site may make before it reads a question, at first; the next time four times as many
LONGEST_PAUSE = 16  # times --resend, between two questions if none is answered
LEAVE_NO_ENTRY = {"refused", "balance", "already", "stale", "about", "resent"}  # keys of replies
OF_PEERS = {"held", "already", "taken", "stale"}  # keys of replies to messages
REFUSED_PEERS = (16, 17, 18, 21)  # refusals of messages alone
ANOTHER = 18  # that of a message with the name of another operation
AT_ONCE = 1 << 16  # bytes that are taken from those that wait at a time
MOST_UNCONFIRMED = 1 << 20  # bytes that a command is given before it has confirmed any, with --confirm
MOMENT = 0.05  # seconds between two looks at a process
PAUSE = 1.0  # seconds before a command that confirmed nothing is started again


def options() -> argparse.Namespace:
    described = (__doc__ or "").replace("wire.py", os.path.basename(sys.argv[0]))
    reader = argparse.ArgumentParser(description=described, formatter_class=argparse.RawDescriptionHelpFormatter)
    reader.add_argument("--me", metavar="S", type=int, required=True, help="the site whose lines come in")
    reader.add_argument("--sites", metavar="K", type=int, required=True, help="the number of sites")
    reader.add_argument("--to", metavar="COMMAND", required=True, help="what takes the messages for site {}")
    reader.add_argument("--confirm", action="store_true", help="the command writes a line for each that it delivered")
    reader.add_argument("--apart", action="store_true", help="write beside each reply whose it is")
    reader.add_argument("--most", metavar="N", type=int, default=MOST_MESSAGES,
                        help=f"messages that wait for a site, {MOST_MESSAGES:,}")
    reader.add_argument("--resend", metavar="SECONDS", type=float, default=60,
                        help="between two looks at what was dropped, 60")
    reader.add_argument("--wait", metavar="SECONDS", type=float, default=60, help="for one that takes nothing, 60")
    asked = reader.parse_args()
    if not 2 <= asked.sites <= 16 or not 0 <= asked.me < asked.sites:
        reader.error("--sites wants 2 to 16, and --me a number below it")
    if asked.most < 1 or asked.resend <= 0:
        reader.error("--most wants 1 or more, and --resend a time")
    return asked


def say(text: str) -> None:
    print(f"wire: {text}", file=sys.stderr, flush=True)


class Queue:
    """Lines that wait in their order, in memory. There is a bound on them, and on their bytes."""

    def __init__(self, most: int, most_bytes: int) -> None:
        self.changed = threading.Condition()
        self.most, self.most_bytes = most, most_bytes
        self.first: Deque[bytes] = collections.deque()
        self.size = 0  # bytes of these
        self.is_over = False

    def fits(self) -> bool:
        """Whether one more line fits."""
        return len(self.first) < self.most and self.size < self.most_bytes

    def put(self, line: bytes) -> bool:
        """Has a line wait, if it fits, and says whether it does."""
        with self.changed:
            fits = self.fits()
            if fits:
                self.first.append(line)
                self.size += len(line)
                self.changed.notify()
            return fits

    def end(self) -> None:
        """No line more comes."""
        with self.changed:
            self.is_over = True
            self.changed.notify()

    def take(self, seconds: Optional[float] = None) -> List[bytes]:
        """Some lines. None after these seconds, or if no more come."""
        with self.changed:
            self.changed.wait_for(lambda: self.first or self.is_over, seconds)
            taken, size = [], 0
            while self.first and size < AT_ONCE:
                taken.append(self.first.popleft())
                size += len(taken[-1])
            self.size -= size
            return taken

    def count(self) -> int:
        with self.changed:
            return len(self.first)

    def is_half_free(self) -> bool:
        with self.changed:
            return 2 * len(self.first) <= self.most and 2 * self.size <= self.most_bytes

    def have_ended(self) -> bool:
        with self.changed:
            return self.is_over and not self.first


class Spilling(Queue):
    """Lines that wait without a bound: what doesn't fit into memory is in a file."""

    def __init__(self) -> None:
        super().__init__(MOST_REPLIES, MOST_REPLY_BYTES)
        self.file: Optional[BinaryIO] = None
        self.in_file, self.at = 0, 0  # lines that wait in the file, and where they begin

    def put(self, line: bytes) -> bool:
        with self.changed:
            if not self.in_file and super().put(line):
                return True
            self.file = self.file or tempfile.TemporaryFile()
            self.file.write(line)
            self.in_file += 1
            return True

    def take(self, seconds: Optional[float] = None) -> List[bytes]:
        with self.changed:
            taken = super().take(seconds)
            if not self.first and self.in_file:
                self.read_file()
            return taken

    def read_file(self) -> None:
        """Brings lines of the file into memory. A file without a line more is emptied."""
        self.file.flush()
        size = MOST_REPLY_BYTES // 8
        while b"\n" not in (data := os.pread(self.file.fileno(), size, self.at)):
            size *= 2
        data = data[:data.rindex(b"\n") + 1]
        lines = [line + b"\n" for line in data.split(b"\n")[:-1]]
        self.first.extend(lines)
        self.size += len(data)
        self.in_file, self.at = self.in_file - len(lines), self.at + len(data)
        if not self.in_file:
            self.file.seek(0)
            self.file.truncate()
            self.at = 0

    def count(self) -> int:
        with self.changed:
            return len(self.first) + self.in_file


class Command:
    """A process that takes lines on its standard input, and those of them that it hasn't confirmed."""

    def __init__(self, words: str, lines: Sequence[bytes], confirms: bool) -> None:
        # Its end of the pipe is kept open here as well: what it didn't read can be counted once it has ended.
        self.theirs, self.ours = os.pipe()  # (the second is None once its input has ended)
        os.set_blocking(self.ours, False)
        self.process = subprocess.Popen(words, shell=True, stdin=self.theirs,
                                        stdout=subprocess.PIPE if confirms else sys.stderr)
        self.back = self.process.stdout.fileno() if confirms else None
        if confirms:
            os.set_blocking(self.back, False)
        self.lines: Deque[bytes] = collections.deque()
        self.size, self.unwritten = 0, b""  # bytes of these lines, and the last of them, which aren't written yet
        self.add(lines)

    def add(self, lines: Sequence[bytes]) -> None:
        self.lines.extend(lines)
        data = b"".join(lines)
        self.size += len(data)
        self.unwritten += data

    def has_ended(self) -> bool:
        return self.process.poll() is not None

    def write(self) -> None:
        """Waits a moment for the pipe, and writes what it takes."""
        if select.select([], [self.ours], [], MOMENT)[1]:
            with contextlib.suppress(BlockingIOError):
                self.unwritten = self.unwritten[os.write(self.ours, self.unwritten[:AT_ONCE]):]

    def is_behind(self) -> bool:
        """Whether it has to confirm lines before it is given more."""
        return self.back is not None and self.size >= MOST_UNCONFIRMED

    def wait_back(self) -> None:
        """Waits a moment for a line that confirms one."""
        select.select([self.back], [], [], MOMENT)

    def end(self) -> None:
        """Ends its input, and waits a moment for its end."""
        if self.ours is not None:
            os.close(self.ours)
            self.ours = None
        with contextlib.suppress(subprocess.TimeoutExpired):
            self.process.wait(MOMENT)

    def unread(self) -> int:
        """Bytes that the process hasn't read."""
        return len(self.unwritten) + struct.unpack("i", fcntl.ioctl(self.theirs, termios.FIONREAD, bytes(4)))[0]

    def written_back(self) -> int:
        """How many lines came back since the last look."""
        count = 0
        with contextlib.suppress(BlockingIOError):
            while data := os.read(self.back, AT_ONCE):
                count += data.count(b"\n")
        return count

    def confirmed(self) -> int:
        """Lets go of the lines that are confirmed, and counts them."""
        count = 0
        if self.back is not None:
            count = min(self.written_back(), len(self.lines))
            self.size -= sum(len(self.lines.popleft()) for _ in range(count))
            return count
        unread = self.unread()
        while self.lines and self.size - len(self.lines[0]) >= unread:
            self.size -= len(self.lines.popleft())
            count += 1
        return count

    def close(self) -> None:
        """Gives back what a process that ended had."""
        for end in (self.ours, self.theirs):
            if end is not None:
                os.close(end)
        if self.back is not None:
            self.process.stdout.close()


class Taker(threading.Thread):
    """A thread that gives on the lines that wait for one reader."""

    def __init__(self, name: str, lines: Queue) -> None:
        super().__init__(name=name, daemon=True)
        self.lines = lines
        self.moved = time.monotonic()  # when something was last taken
        self.failed = False

    def left(self) -> int:
        """How many lines wait."""
        return self.lines.count()


class Dropped:
    """What was dropped for one site: all of a site's messages from one on. Messages come in the order of their entries,
    at first and again, so that this one alone is known."""

    def __init__(self, first: bytes, entry: int) -> None:
        self.first, self.entry = first, entry  # the first message, and at most how many entries were before it
        self.unseen = UNSEEN
        self.is_met, self.moved = False, False  # among those that came again; since then other messages are the first


class Way(Taker):
    """The way to another site: a command, which is started again as often as it ends. Its messages wait up to a bound.
    What was dropped is known to the thread that reads the site's lines, which alone changes it."""

    def __init__(self, site: int, asked: argparse.Namespace) -> None:
        super().__init__(f"the command for site {site}", Queue(asked.most, MOST_MESSAGE_BYTES))
        self.site, self.words, self.confirms = site, asked.to.replace("{}", str(site)), asked.confirm
        self.given: Sequence[bytes] = []  # to a command, and not confirmed
        self.dropped: Optional[Dropped] = None
        self.number, self.said = 0, 0  # of messages that were dropped, and those of them that were said

    def put(self, message: bytes, entry: int) -> None:
        """Has a message wait that wasn't sent before, or drops it, with this number of entries before it."""
        if self.dropped or not self.lines.put(message):
            self.dropped = self.dropped or Dropped(message, entry)
            self.number += 1

    def put_again(self, message: bytes) -> None:
        """Has a message wait that is sent again, if it is one of those that were dropped. What again doesn't fit is
        what was dropped from then on."""
        dropped = self.dropped
        dropped.is_met = dropped.is_met or message == dropped.first
        if dropped.is_met and not self.lines.put(message):
            dropped.first, dropped.is_met, dropped.moved = message, False, True

    def came_again(self) -> None:
        """All messages of some last entries were sent again."""
        if self.dropped.is_met:
            self.dropped = None
            say(f"site {self.site}: all that was dropped is on its way again")
        elif self.dropped.moved:
            self.dropped.moved = False
        else:
            self.dropped.unseen = min(4 * self.dropped.unseen, ALL)

    def say_dropped(self) -> None:
        """Says how many messages were dropped since that was said last."""
        more = self.number - self.said
        if more:
            self.said += more
            say(f"site {self.site}: {more} messages dropped; {self.left()} wait")

    def lacks(self) -> bool:
        """Says at the end that messages were dropped and didn't come again."""
        self.say_dropped()
        if self.dropped:
            say(f"site {self.site}: what was dropped comes when this site starts again")
        return self.dropped is not None

    def left(self) -> int:
        return len(self.given) + super().left()

    def run(self) -> None:
        left: List[bytes] = []
        while left := left or self.lines.take():
            command = Command(self.words, left, self.confirms)
            self.given = command.lines
            has_taken = self.serve(command)
            command.close()
            left, status = list(command.lines), command.process.returncode
            self.failed = status != 0
            if left or self.failed:
                self.ended_early(status, has_taken, len(left))

    def serve(self, command: Command) -> bool:
        """Gives a command lines until it has ended. Whether it confirmed any."""
        has_taken = False
        while True:
            ended = command.has_ended()
            if command.confirmed():
                has_taken, self.moved = True, time.monotonic()
            if ended:
                return has_taken
            if command.unwritten:
                command.write()
            elif command.is_behind():
                command.wait_back()
            elif self.lines.have_ended():
                command.end()
            else:
                command.add(self.lines.take(MOMENT))

    def ended_early(self, status: int, has_taken: bool, left: int) -> None:
        """Says that a command ended. It may have lost what it read and didn't deliver."""
        say(f"{self.name} ended in {status}; {left} lines that it was given aren't confirmed")
        if not has_taken:
            time.sleep(PAUSE)


class Replies(Taker):
    """The way of the replies to standard output. Once their reader is gone they are dropped."""

    def __init__(self) -> None:
        super().__init__("the reader of the replies", Spilling())

    def run(self) -> None:
        while taken := self.lines.take():
            data = b"".join(taken)
            try:
                while data and not self.failed:
                    data = data[os.write(sys.stdout.fileno(), data):]
                    self.moved = time.monotonic()
            except BrokenPipeError:
                self.failed = True
                say(f"{self.name} is gone")


def compact(value: Any) -> bytes:
    return json.dumps(value, separators=(",", ":"), sort_keys=True).encode() + b"\n"


class Asker(threading.Thread):
    """A thread that asks the site each while for what was dropped."""

    def __init__(self, asked: argparse.Namespace, ways: List[Way]) -> None:
        super().__init__(name="the command for questions", daemon=True)
        self.words, self.seconds, self.ways = asked.to.replace("{}", str(asked.me)), asked.resend, ways
        self.lock, self.is_over = threading.Lock(), threading.Event()
        self.entries = 0  # of the site since it was started, or fewer
        self.unanswered = 0  # questions
        self.process: Optional[subprocess.Popen] = None

    def run(self) -> None:
        pause = self.seconds
        while not self.is_over.wait(pause):
            for way in self.ways:
                way.say_dropped()
            number = self.wanted()
            pause = min(2 * pause, LONGEST_PAUSE * self.seconds) if self.unanswered else self.seconds
            if number:
                self.ask(number)

    def wanted(self) -> int:
        """How many of the last entries have all that was dropped for the sites that take something again."""
        dropped = [way.dropped for way in self.ways if way.lines.is_half_free()]
        return min(ALL, max((self.entries - it.entry + it.unseen for it in dropped if it), default=0))

    def ask(self, number: int) -> None:
        """Gives the site its question. That may take as long as the site reads nothing."""
        with self.lock:
            if self.is_over.is_set():
                return
            self.unanswered += 1
            self.process = subprocess.Popen(self.words, shell=True, stdin=subprocess.PIPE, stdout=sys.stderr,
                                            start_new_session=True)
        with contextlib.suppress(BrokenPipeError):
            self.process.communicate(compact({"resend": number}))
        if self.process.returncode and not self.is_over.is_set():
            say(f"{self.name} ended in {self.process.returncode}")
            self.answered()

    def answered(self) -> bool:
        """Whether a question was unanswered, one of which now isn't."""
        with self.lock:
            was = self.unanswered > 0
            self.unanswered -= was
            return was

    def end(self) -> None:
        """The site has ended: nothing is asked any more."""
        self.is_over.set()
        with self.lock, contextlib.suppress(ProcessLookupError):
            if self.process and self.process.poll() is None:
                os.killpg(self.process.pid, signal.SIGKILL)


class Answer(NamedTuple):
    """A site's line: its messages, each with the site that it is for or None for all, and its replies, each with whose
    it is. A line with messages alone is of some that were sent before."""

    messages: List[Tuple[Optional[int], bytes]]
    replies: List[Dict]
    entries: int
    is_again: bool
    resent: bool


def reply_of(answer: Dict) -> Dict:
    """The reply of a line, and whose it is: a client's if it isn't certainly a message's."""
    reply = answer["reply"]
    is_peers = reply.get("refused") in REFUSED_PEERS or not OF_PEERS.isdisjoint(reply)
    beside = {key: it for key, it in answer.items() if key not in ("reply", "sends", "then")}
    return {"peer" if is_peers else "client": reply, **beside}


def parsed(line: bytes) -> Answer:
    """What a line of a site says. What is said of a bad line is a reply to it."""
    try:
        answer = json.loads(line)
        if "bad" in answer:
            return Answer([], [{"client": answer}], 0, False, False)
        messages = [(None if "shadow" in it else it["token"][1], compact(it)) for it in answer["sends"]]
        if "reply" not in answer:
            return Answer(messages, [], 0, True, False)
        entries = LEAVE_NO_ENTRY.isdisjoint(answer["reply"]) + len(answer["then"])
        replies = [reply_of(answer), *({"then": it} for it in answer["then"])]
        return Answer(messages, replies, entries, "again" in answer, "resent" in answer["reply"])
    except (ValueError, KeyError, TypeError, IndexError):
        sys.exit(f"wire: this is no line of a site: {line.decode(errors='replace').strip()[:200]}")


class Carrier:
    """Has each message wait for the sites that it is for, and each reply for its reader."""

    def __init__(self, ways: List[Way], replies: Replies, asker: Asker, asked: argparse.Namespace) -> None:
        self.ways, self.replies, self.asker, self.apart, self.me = ways, replies, asker, asked.apart, asked.me
        self.has_begun = False  # a site's first lines are the messages that it sent before
        self.has_told = False  # of another operation's name

    def carry(self, lines: BinaryIO) -> None:
        """Carries what lines say, to their end."""
        for line in lines:
            if not line.endswith(b"\n"):
                return say("the last line is there in part, and is left out")
            answer = parsed(line)
            self.has_begun = self.has_begun or bool(answer.replies)
            self.send(answer)
            self.asker.entries += answer.entries
            own = answer.resent and self.asker.answered()
            for way in self.ways if answer.resent else []:
                if way.dropped:
                    way.came_again()
            for reply in [] if own else answer.replies:
                whose = next(iter(reply.values()))
                self.tell(whose)
                self.replies.lines.put(compact(reply if self.apart else whose))

    def tell(self, reply: Dict) -> None:
        """Says once that a message has the name of another operation, as a site's that forgot what it had made."""
        if reply.get("refused") == ANOTHER and not self.has_told:
            self.has_told = True
            senders = " or ".join(str(way.site) for way in self.ways)
            say(f"an older copy of the journal of site {senders} was started, or there is a second token: "
                f"site {self.me} has another operation of a name that came ({ANOTHER})")

    def send(self, answer: Answer) -> None:
        """Has the messages of a line wait."""
        asked = bool(self.asker.unanswered) and not answer.replies
        for to, message in answer.messages:
            for way in self.ways:
                if to not in (None, way.site):
                    continue
                if not self.has_begun or not answer.is_again:
                    way.put(message, self.asker.entries if self.has_begun else -ALL)
                elif way.dropped and not answer.replies:
                    way.put_again(message)
                elif not way.dropped and not asked:
                    way.put(message, -ALL)


def finish(taker: Taker, seconds: float) -> bool:
    """Waits until all lines are given on. False if nothing is taken for that long, a reader failed at the end, or
    messages were dropped for good."""
    while taker.is_alive() and time.monotonic() - taker.moved < seconds:
        taker.join(MOMENT)
    if taker.is_alive():
        say(f"{taker.name} takes nothing; {taker.left()} lines wait for it")
    lacks = isinstance(taker, Way) and taker.lacks()
    return not taker.is_alive() and not taker.failed and not lacks


def stop_all(fault: threading.ExceptHookArgs) -> None:
    """A thread that can't go on ends the process, so that the site stops rather than lose what it sends."""
    say(f"{fault.thread.name}: {fault.exc_value}")
    os._exit(1)


def main() -> int:
    asked = options()
    threading.excepthook = stop_all
    replies = Replies()
    ways = [Way(site, asked) for site in range(asked.sites) if site != asked.me]
    asker = Asker(asked, ways)
    takers = [replies, *ways]
    for thread in (*takers, asker):
        thread.start()
    try:
        Carrier(ways, replies, asker, asked).carry(sys.stdin.buffer)
    except OSError as why:
        sys.exit(f"wire: {why}")
    finally:
        asker.end()
    for taker in takers:
        taker.moved = time.monotonic()
        taker.lines.end()
    finished = [finish(taker, asked.wait) for taker in takers]
    return 0 if all(finished) else 1


if __name__ == "__main__":
    try:
        sys.exit(main())
    except KeyboardInterrupt:
        sys.exit(130)
