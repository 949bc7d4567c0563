"""A site as a process on its journal, for crash.py: each answer is kept, and compared with the journal once the process
has ended, however it did. The words that start a site are here as well, for all tests that start one.
"""
import functools
import json
import os
import re
import resource
import select
import signal
import subprocess
import time

PATIENCE = 60  # seconds for one answer


class Failed(Exception):
    """What a site did that it may not do."""


def compact(value):
    return json.dumps(value, separators=(",", ":"), sort_keys=True)


@functools.lru_cache(None)
def has_word_for_new(program):
    """Whether a site has to be asked for a new journal."""
    return b"--new" in subprocess.run([program, "site", "--help"], capture_output=True).stdout


def words_of_start(program, me, journal, resend=None, record=None, bank=None):
    """The words that start a site on a journal, which may not be there yet. Its bank may have a name."""
    words = [program, "site", "--me", str(me), "--journal", journal]
    words += [] if resend is None else ["--resend", str(resend)]
    words += [] if record is None else ["--record", record]
    words += [] if bank is None else ["--bank", bank]
    return words + (["--new"] if not os.path.exists(journal) and has_word_for_new(program) else [])


def is_journal_failed(errors):
    """Whether this is the text of a journal that failed, which may say why."""
    return re.fullmatch(r"rbbank: journal failed(: .+: .+)?\n", errors) is not None


def without_notes(errors):
    """What a site said without the note that it cut off what a crash left."""
    return re.sub(r"rbbank: journal line \d+: \d+ bytes behind it cut off, kept in .+\.cut\n", "", errors)


def whole_lines(data):
    """The lines that a journal has: whole ones, up to the first that doesn't begin with a brace."""
    end = 0
    while data[end:end + 1] == b"{":
        at = data.find(b"\n", end)
        if at < 0:
            break
        end = at + 1
    return data[:end]


def read(path):
    """The bytes of a file, none where it isn't there."""
    if not os.path.exists(path):
        return b""
    with open(path, "rb") as file:
        return file.read()


def name_of(message):
    """What a message is known by: the operation's name, or the token's epoch."""
    return message["shadow"]["name"] if "shadow" in message else f"token {message['token'][0]}"


def names_of(reply):
    """The same of what a reply made, applied or took. A stale token needn't come again either."""
    if "kind" in reply:
        return [reply["name"]]
    token = reply.get("taken", reply.get("stale"))
    if token is not None:
        return [f"token {token}"]
    return [reply["applied"]] if "applied" in reply else reply.get("names", [])


def is_of(bank, event):
    """Whether an event is of the bank of this name: one that has no name is, unless it is a message."""
    return event.get("bank", None if "shadow" in event or "token" in event else bank) == bank


def without_bank(event):
    """An event as an entry has it, without its bank's name."""
    return {key: value for key, value in event.items() if key != "bank"}


def is_recorded(event, reply):
    """Whether an event of this reply changed the site, so that it is an entry: a refusal is, of what was held alone."""
    if "refused" in reply:
        return "apply" in event and reply["refused"] not in (14, 15, 23)
    return not {"balance", "already", "stale"} & reply.keys()


def entry(event, reply, number):
    """The line of an entry of a site. It has the id of a request that was made, and no bank's name."""
    event = without_bank(event)
    asked = event.pop("id", None)
    made = {"id": asked} if asked is not None and "refused" not in reply else {}
    return compact({"event": event, "reply": reply, "site": number} | made)


def sent_by(reply):
    """The names of the messages that an event of this reply sent."""
    if "passed" in reply:
        return [f"token {reply['passed']}"]
    return [reply["name"]] if "kind" in reply else reply.get("names", [])


class Site:
    """A site: its journal, the process that runs on it, and what that was asked and answered since it started."""

    def __init__(self, bank, number):
        self.bank, self.number, self.process = bank, number, None
        self.journal = bank.file(f"{number}.journal")
        self.entries = []       # the lines behind the configuration, as the journal was last found
        self.sent = {}          # each message that it ever sent, by its name
        self.made = {}          # the reply to each request that was made by an id
        self.unanswered = []    # the requests with an id that got no answer
        self.asked, self.wanted, self.replies, self.again, self.buffered = [], [], [], [], b""

    # ---- the process

    def start(self, resend=None, limit=None, ignored=False):
        """Starts a process on the journal. A limit on the file's size ends it in a write, or fails that write."""
        def bounds():
            if limit is not None:
                signal.signal(signal.SIGXFSZ, signal.SIG_IGN if ignored else signal.SIG_DFL)
                resource.setrlimit(resource.RLIMIT_FSIZE, (limit, limit))
        words = words_of_start(self.bank.program, self.number, self.journal, resend, bank=self.bank.name)
        self.process = subprocess.Popen(words, stdin=subprocess.PIPE, stdout=subprocess.PIPE, stderr=subprocess.PIPE,
                                        bufsize=0, preexec_fn=bounds, restore_signals=not ignored)
        self.limit = limit
        self.asked, self.wanted, self.replies, self.buffered = [], [], [], b""
        last = self.entries if resend is None else self.entries[len(self.entries) - min(resend, len(self.entries)):]
        sent = (sent_by(json.loads(line)["reply"]) for line in last)
        self.again = [names for names in sent if names]
        self.give([self.bank.config])

    def give(self, lines):
        """Writes lines to the process in one write. Whether it takes them shows later."""
        try:
            self.process.stdin.write("".join(line + "\n" for line in lines).encode())
        except BrokenPipeError:
            pass

    def ask(self, events):
        self.asked += [compact(event) for event in events]
        self.give(self.asked[-len(events):])

    def take(self, data):
        """Takes what the process wrote: messages sent again first, and then an answer for each event."""
        *lines, self.buffered = (self.buffered + data).split(b"\n")
        for line in lines:
            try:
                value = json.loads(line)
            except ValueError:
                raise Failed(f"site {self.number} wrote {line[:200]!r}") from None
            if compact(value).encode() != line:
                raise Failed(f"site {self.number} wrote a line that isn't compact: {line[:200]!r}")
            if value.keys() == {"sends"} and self.again:
                self.sends(value["sends"], self.again.pop(0))
            elif value.keys() - {"again", "id"} == {"reply", "sends", "then"} and self.asked and not self.again:
                self.answered(value, json.loads(self.asked.pop(0)))
            else:
                raise Failed(f"site {self.number} wrote {line[:200]!r}, and has to send {self.again[:1]} again")

    def sends(self, messages, names):
        """Messages of these names go out, each with the bank's name. One that is sent again is what it was."""
        if [name_of(message) for message in messages] != names:
            raise Failed(f"site {self.number} sent {compact(messages)[:200]} and not {names}")
        for name, message in zip(names, messages):
            if message.get("bank") != self.bank.name:
                raise Failed(f"site {self.number} sent a message without its bank's name: {compact(message)[:200]}")
            if self.sent.setdefault(name, message) != message:
                raise Failed(f"site {self.number} sent two messages of one name: {compact(message)}")
        self.bank.route(self.number, messages)

    def answered(self, answer, event):
        """An answer to an event: its entry, if it has one, and those of the applications have to be there."""
        if not is_of(self.bank.name, event):
            return self.refused(answer, event)
        reply, asked = answer["reply"], event.get("id")
        if answer.get("id") != asked:
            raise Failed(f"site {self.number} answered {compact(event)} by {compact(answer)[:200]}")
        self.replies.append(reply)
        if "again" in answer:
            self.answered_again(answer, asked)
        elif asked in self.made:
            raise Failed(f"site {self.number} made {compact(event)} twice: {compact(answer)[:200]}")
        elif is_recorded(event, reply):
            self.wanted.append(entry(event, reply, self.number))
        for later in answer["then"]:
            if "applied" not in later:
                raise Failed(f"site {self.number} refused what it held: {compact(later)}")
            self.wanted.append(entry({"apply": later["applied"]}, later, self.number))
        if asked is not None:
            self.bank.clients.answered(self.number, event, answer)
        if asked is not None and "refused" not in reply:
            self.made[asked] = reply
        self.bank.count["events"] += 1
        self.bank.clients.hear(self.number, reply)
        self.sends(answer["sends"], sent_by(reply))
        return None

    def refused(self, answer, event):
        """The answer to another bank's event: refusal 26 alone, and nothing is recorded."""
        if answer != {"reply": {"refused": 26}, "sends": [], "then": []}:
            text = compact(answer)[:200]
            raise Failed(f"site {self.number} answered {compact(event)[:200]} of another bank by {text}")
        self.replies.append(answer["reply"])
        self.bank.count["other banks"] += 1

    def answered_again(self, answer, asked):
        """A request of this id was made before. Its reply is the first one, if that is known."""
        self.bank.count["again"] += 1
        if self.made.setdefault(asked, answer["reply"]) != answer["reply"]:
            raise Failed(f"site {self.number} gave another reply to {asked}: {compact(answer)[:200]}")
        if answer["then"] or "refused" in answer["reply"]:
            raise Failed(f"site {self.number} answered {compact(answer)[:200]}")

    def wait(self):
        """Waits until all is answered. False where the process ended before."""
        until = time.monotonic() + PATIENCE
        while self.asked:
            if not select.select([self.process.stdout], [], [], max(0, until - time.monotonic()))[0]:
                raise Failed(f"site {self.number} didn't answer in {PATIENCE} s: {self.asked[0][:200]}")
            data = os.read(self.process.stdout.fileno(), 1 << 20)
            if not data:
                return False
            self.take(data)
        return True

    # ---- its end

    def kill(self):
        self.process.send_signal(signal.SIGKILL)
        return self.ended()

    def close(self):
        """Ends a process at the end of its input."""
        status, at_rest = self.ended()
        if status != 0 or not at_rest or self.asked:
            raise Failed(f"site {self.number} ended in {status}, its journal {'' if at_rest else 'not '}at rest")

    def ended(self):
        """Takes what the process has still written, looks at its status, and at the journal that it left."""
        self.process.stdin.close()
        self.take(self.process.stdout.read())
        errors, status = self.process.stderr.read().decode(), self.process.wait()
        self.process.stdout.close()
        self.process.stderr.close()
        self.process = None
        self.unanswered += [event for event in self.left() if "id" in event]
        errors = without_notes(errors)
        known = [(0, ""), (-signal.SIGKILL, "")]
        if self.limit is not None:
            # It may be killed as it says that its journal failed.
            errors = "failed" if is_journal_failed(errors) else errors
            known += [(-signal.SIGXFSZ, ""), (3, "failed"), (-signal.SIGKILL, "failed")]
        if (status, errors) not in known:
            raise Failed(f"site {self.number} ended in {status}: {errors}")
        if self.buffered and status in (0, 3):
            raise Failed(f"site {self.number} wrote a line in part: {self.buffered[:200]!r}")
        return status, self.look()

    def left(self):
        """The events of its bank that have no answer."""
        return [event for event in map(json.loads, self.asked) if is_of(self.bank.name, event)]

    def look(self):
        """Whether the journal is at rest. It has to have what it had, what was answered, and a part of what wasn't."""
        data = read(self.journal)
        lines = whole_lines(data)
        config, *found = lines.decode().split("\n")[:-1] or [None]
        if config not in (None, self.bank.written) or config is None and (self.entries or self.wanted):
            raise Failed(f"the journal of site {self.number} begins otherwise than it was made")
        known = len(self.entries)
        if found[:known] != self.entries:
            raise Failed(f"the journal of site {self.number} lost or changed an entry that it had")
        behind = found[known:known + len(self.wanted)]
        if behind != self.wanted:
            at = next((n for n, line in enumerate(self.wanted) if behind[n:n + 1] != [line]), 0)
            raise Failed(f"the journal of site {self.number} lacks what was answered: {self.wanted[at][:300]}")
        self.look_behind(found[known + len(self.wanted):])
        self.entries = found
        return data in (lines + b" ", b"")

    def look_behind(self, lines):
        """What is behind the answered events has to be of a first part of the others, in their order, with what was
        applied after each. Another bank's event has no entry."""
        waiting = iter(self.left())
        for line in lines:
            found = json.loads(line)
            if "applied" in found["reply"]:
                continue
            if all(entry(event, found["reply"], self.number) != line for event in waiting):
                raise Failed(f"the journal of site {self.number} has an entry of no event: {line[:300]}")
            self.bank.count["unreported"] += 1
