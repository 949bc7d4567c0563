"""The core of the bank: sites that answer lines, by the proved library.

A bank has all sites of a configuration, with the messages between them:

>>> with Bank('{"accounts":[["ann",0]],"sites":2,"version":1}') as bank:
...     bank.answer('{"deposit":["ann",500],"site":0}')
...     bank.answer('{"balance":"ann","site":0}')
'{"kind":"deposit","name":"B0.1"}'
'{"balance":500}'

A site is one of them, whose messages and journal are the caller's to carry and to keep:

>>> with Site(1, '{"accounts":[["ann",0]],"sites":2,"version":1}') as site:
...     site.answer('{"balance":"ann"}')
...     site.entries()
'{"reply":{"balance":0},"sends":[],"then":[]}'
b'{"event":{"balance":"ann"},"reply":{"balance":0},"site":1}\\n'

A dict is taken in place of a line, and then a dict is given back; a `Refusal` is a number with a name:

>>> with Bank({"accounts": [["ann", 0]], "sites": 2, "version": 1}) as bank:
...     bank.answer({"deposit": ["ann", 500], "site": 0})["name"]
...     Refusal.of(bank.answer({"balance": "eve", "site": 0})).words
'B0.1'
'unknown account'

A `Journal` is a site that keeps its own journal, in a file.

`script`, `audit`, `migrate` and `close` are whole runs. Lines, limits and refusals are those of docs/FORMAT.md; a
refusal is a reply, and no exception.

A bank or a site may go to another thread, and is used by one at a time: calls of several threads wait for each other.
An answer and what is read after it (`sends`, `entries`, `reply`) are calls of their own: threads that share one need a
lock of their own round them.

The library is librbbank.so: in the folder that the environment's RBBANK_LIB names, else beside this module, as a wheel
has it, else in bindings/out (`make bindings` makes it), else where the system finds libraries. Without one the first
call raises OSError, in a sentence.
"""
from __future__ import annotations

import ctypes
import enum
import errno
import json
import os
import re
import threading
import typing
import weakref

__all__ = ["Audit", "BadLine", "Bank", "Books", "CloseFault", "Closed", "Journal", "JournalFault", "LineFault",
           "Message", "NoSuchSite", "Refusal", "Site", "WrongReply", "audit", "close", "migrate", "script", "version"]

Line = typing.Union[str, bytes]
Values = typing.Mapping[str, typing.Any]
_Self = typing.TypeVar("_Self", bound="_Handle")


class Closed(RuntimeError):
    """The bank or the site was closed, or ended before: for want of memory, with a wrong reply, or as a call on its
    journal's file failed."""


class BadLine(ValueError):
    """The line is no configuration, command, event or entry of this site. Nothing has changed.

    Its text says why, in words that may change, as "column 47: 25 is out of range: a refusal is 1 to 24"; `column` is
    which character of the line that is, from 1, and `why` the text without it. The column is None if there was no
    memory, or if nothing is wrong with the line itself: an entry is another site's, is too long, has an id that is
    there, or isn't as a site writes it. Of a dict the line is its JSON with no spaces.
    """

    def __init__(self, text: str = "") -> None:
        super().__init__(text)
        column = re.match(r"column (\d+): ", text)
        self.column, self.why = (int(column[1]), text[column.end():]) if column else (None, text)


def _with_why(text: str, fault: BadLine | None) -> str:
    """A text, and after it why, if that is known."""
    return f"{text}: {fault}" if fault else text


class NoSuchSite(ValueError):
    """The configuration has no site of that number."""

    def __init__(self, why: str = "the configuration has no such site") -> None:
        super().__init__(why)


class WrongReply(ValueError):
    """The site gives another reply than the entry has, or its history is full. The site is closed."""

    def __init__(self, why: str = "another reply than the entry has, or a full history") -> None:
        super().__init__(why)


class JournalFault(ValueError):
    """The file is no journal that this site goes on from. It is left as it was.

    `reason` is "another bank's journal", "bad line", "wrong reply", "damaged", "sealed", "no journal" if it isn't there
    and no new one was asked for, or "there is a journal" if a new one was, and it is there with bytes in it. With "bad
    line", "wrong reply" and "damaged" `line` is the number of the line in the file, from 1, else None. With "bad line"
    `fault` is the BadLine of that line, else None.
    """

    def __init__(self, reason: str, line: int | None = None, fault: BadLine | None = None) -> None:
        super().__init__(_with_why(f"journal line {line}: {reason}" if line else reason, fault))
        self.reason, self.line, self.fault = reason, line, fault


class LineFault(BadLine):
    """An input with a bad line, at which the run ended.

    `line` is its number, from 1, or 0 if the input has no configuration; `written` is what was written before it. The
    column and why are those of a BadLine.
    """

    def __init__(self, line: int, written: str, fault: BadLine | None = None) -> None:
        super().__init__(str(fault or ""))
        self.args = (_with_why(f"line {line}" if line else "no configuration", fault),)
        self.line, self.written = line, written


class Message(typing.NamedTuple):
    """A message of a site's answer: its line, word for word that of the event that a receiver is given, and the site
    that it is for, or None for each other one."""
    line: str
    to: int | None


class Audit(typing.NamedTuple):
    """What an audit found: whether one world has the histories, and the line that says in which order, or the fault."""
    certified: bool
    line: str


class Books(typing.NamedTuple):
    """What closing a bank's books found: whether they are closed, and the line: the next bank's configuration, or what
    each site lacks, or which account has more than one may start with, or what an audit finds."""
    closed: bool
    line: str


class CloseFault(ValueError):
    """A bank's books weren't closed.

    `reason` is "bad line", "not sealed", "another bank's journal", "another site's entry", "number of journals",
    "no journal", "number of sites", "there is one already", "no name" or "too many accounts". With the first four
    `journal` is the index of the journal, and with a line that is wrong `line` is its number in it, from 1. With "bad
    line" `fault` is the BadLine of that line. If it is of an account's name, `account` is the name. Else they are None.
    """

    def __init__(self, reason: str, text: str, journal: int | None = None, line: int | None = None,
                 account: str | None = None, fault: BadLine | None = None) -> None:
        super().__init__(_with_why(text, fault))
        self.reason, self.journal, self.line, self.account, self.fault = reason, journal, line, account, fault


class Refusal(enum.IntEnum):
    """Why something was refused: the number of a reply `{"refused":N}`. `words` says what it means, with keys of the
    reply in backticks."""

    words: str

    def __new__(cls, number: int, words: str) -> Refusal:
        refusal = int.__new__(cls, number)
        refusal._value_, refusal.words = number, words
        return refusal

    @classmethod
    def of(cls, answer: Line | Values) -> Refusal | None:
        """The refusal that a bank's reply is, or the reply in a site's answer, if it is one."""
        values = _last(_bytes(answer).decode() or "{}")
        number = values.get("reply", values).get("refused")
        return next((refusal for refusal in cls if refusal == number), None)

    UNKNOWN_ACCOUNT = 1, "unknown account"
    BAD_AMOUNT = 2, "amount out of range: 1 to 100,000,000,000 cents"
    BAD_RATE = 3, "rate out of range: 0 to 10,000 basis points"
    UNKNOWN_OPERATION = 4, "unknown operation: none of this name is applied here"
    NOT_CANCELLABLE = 5, "can't be cancelled (declined, or a cancellation)"
    ALREADY_CANCELLED = 6, "already cancelled, first at `position`"
    NUMBERS_EXHAUSTED = 7, "numbers, or epochs, are used up"
    NEED_TOKEN = 8, "the site hasn't the token"
    RED_BEHIND = 9, "`seen` red operations applied, `needed` before the next"
    WOULD_OVERDRAW = 10, "would leave a balance below zero"
    DELTA_TOO_LARGE = 11, "interest over its limit"
    BAD_BATCH = 12, "bad batch: no request, or more than 16"
    BATCH_REFUSED = 13, "a request of the batch would be declined or is refused"
    NOT_HELD = 14, "nothing is held under the name"
    NOT_READY = 15, "its past isn't applied here yet"
    INBOX_FULL = 16, "the inbox is full, and the operation isn't ready"
    BAD_MESSAGE = 17, "bad message"
    CONFLICT = 18, "another operation has the name, or it is said to be of this site, which didn't make it"
    NO_MESSAGE = 19, "no such message"
    NO_SITE = 20, "no such site, or the token passed to the own one"
    NOT_YOURS = 21, "the token message is for another site"
    POSITION_BEYOND = 22, "the position is beyond the operations that the site applied"
    HISTORY_FULL = 23, "the site's history is full"
    SAME_ACCOUNT = 24, "a transfer's two accounts are one"
    OTHER_REQUEST = 25, "the id is that of another request"
    OTHER_BANK = 26, "the line is of another bank"


# ---- the library

_HANDLE = ctypes.POINTER(ctypes.c_void_p)
_SIZES = ctypes.POINTER(ctypes.c_size_t)
_NUMBERS = ctypes.POINTER(ctypes.c_uint64)
_BYTES = ctypes.POINTER(ctypes.c_uint8)
_TEXT = [ctypes.c_char_p, ctypes.c_size_t]
_TAKES = [_HANDLE, *_TEXT]
_RUNS = [*_TEXT, *_TEXT, _SIZES, _NUMBERS]
_CLOSES = [ctypes.c_uint8, *_TEXT, *_TEXT, _SIZES, ctypes.c_size_t, *_TEXT, _SIZES, _NUMBERS, _NUMBERS]
# Each call of bindings/c/rbbank.h: what it returns, and what it takes.
CALLS: dict[str, tuple[typing.Any, list[typing.Any]]] = {
    "rbbank_version": (ctypes.c_size_t, _TEXT),
    "rbbank_error": (ctypes.c_size_t, [ctypes.c_uint8, *_TEXT, *_TEXT, *_TEXT]),
    "rbbank_open": (ctypes.c_int32, _TAKES),
    "rbbank_answer": (ctypes.c_int32, _TAKES),
    "rbbank_reply": (ctypes.c_size_t, _TAKES),
    "rbbank_close": (None, [_HANDLE]),
    "rbbank_site_open": (ctypes.c_int32, [_HANDLE, ctypes.c_uint8, *_TEXT]),
    "rbbank_site_answer": (ctypes.c_int32, _TAKES),
    "rbbank_site_reply": (ctypes.c_size_t, _TAKES),
    "rbbank_site_entries": (ctypes.c_size_t, _TAKES),
    "rbbank_site_send": (ctypes.c_int32, [_HANDLE, ctypes.c_size_t, *_TEXT, _SIZES, _BYTES]),
    "rbbank_site_replay": (ctypes.c_int32, _TAKES),
    "rbbank_site_close": (None, [_HANDLE]),
    "rbbank_journal_open": (ctypes.c_int32, [_HANDLE, ctypes.c_uint8, ctypes.c_size_t, *_TEXT, *_TEXT, _NUMBERS]),
    "rbbank_journal_answer": (ctypes.c_int32, [_HANDLE, ctypes.c_size_t, *_TEXT]),
    "rbbank_journal_call": (ctypes.c_int32, [*_TAKES, _SIZES, _NUMBERS]),
    "rbbank_journal_done": (ctypes.c_int32, [_HANDLE, ctypes.c_uint8]),
    "rbbank_journal_reply": (ctypes.c_size_t, _TAKES),
    "rbbank_journal_send": (ctypes.c_int32, [_HANDLE, ctypes.c_size_t, *_TEXT, _SIZES, _BYTES]),
    "rbbank_journal_close": (None, [_HANDLE]),
    "rbbank_script": (ctypes.c_int32, _RUNS),
    "rbbank_audit": (ctypes.c_int32, _RUNS),
    "rbbank_migrate": (ctypes.c_int32, _RUNS),
    "rbbank_close_books": (ctypes.c_int32, _CLOSES),
}
_FILE = "librbbank.so"
_PART = 4096  # bytes that are copied without a buffer of the text's own length
_OK, _NONE, _BAD_LINE, _REFUSED, _NO_MEMORY = range(5)
_CONFIG, _COMMAND, _EVENT, _ENTRY = range(4)  # what a line should have been
_loaded: dict[str, typing.Any] = {}


def _path() -> str:
    """Where the library is."""
    folder = os.environ.get("RBBANK_LIB")
    if folder:
        return os.path.join(folder, _FILE)
    here = os.path.dirname(os.path.abspath(__file__))
    beside = [os.path.join(here, _FILE), os.path.join(here, "..", "..", "out", _FILE)]
    return next(filter(os.path.exists, beside), _FILE)


def _library(kind: type[ctypes.CDLL]) -> ctypes.CDLL:
    """The library, or an error in words."""
    try:
        return kind(_path())
    except OSError as why:
        raise OSError(f"rbbank finds no library: {why}. `make bindings` makes {_FILE} in bindings/out; "
                      "the environment's RBBANK_LIB may name another folder") from None


def _call(name: str) -> typing.Any:
    """A call of the library, which is loaded at the first one.

    Calls on a handle keep Python's lock, as they are short; whole runs let other threads go on.
    """
    if name not in _loaded:
        result, takes = CALLS[name]
        call = _library(ctypes.PyDLL if takes[0] is _HANDLE else ctypes.CDLL)[name]
        call.restype, call.argtypes = result, takes
        _loaded[name] = call
    return _loaded[name]


def _bytes(line: Line | Values) -> bytes:
    if isinstance(line, str):
        return line.encode()
    return line if isinstance(line, bytes) else json.dumps(line, separators=(",", ":")).encode()


def _last(text: str) -> typing.Any:
    """The values of the last of some lines."""
    return json.loads(text.rpartition("\n")[2])


def version() -> str:
    """The library's version."""
    return _copied(_call("rbbank_version")).decode()


def _copied(call: typing.Callable[[typing.Any, int], int]) -> bytes:
    """The whole text of a call that copies as much as fits, and gives the length."""
    out = ctypes.create_string_buffer(_PART)
    length = call(out, _PART)
    if length > _PART:
        out = ctypes.create_string_buffer(length)
        call(out, length)
    return ctypes.string_at(out, length)


def _bad_line(kind: int, configuration: bytes, line: bytes) -> BadLine:
    """Why this line isn't taken, which should have been of this kind."""
    given = (kind, configuration, len(configuration), line, len(line))
    error = _call("rbbank_error")
    return BadLine(_copied(lambda out, size: int(error(*given, out, size))).decode())


def _bad_line_of(kind: int, data: bytes, number: int) -> BadLine:
    """The same of the line of this number, from 1, of a text whose first line that isn't blank is a configuration."""
    lines = data.split(b"\n")
    first = next((at for at, line in enumerate(lines) if line.strip(b" \t\r")), 0)
    return _bad_line(_CONFIG if number == first + 1 else kind, lines[first], lines[number - 1])


class _Handle:
    """What C keeps of a bank or of a site, with the lock that lets one thread at a time use it."""

    _prefix: typing.ClassVar[str]
    _kind: typing.ClassVar[int] = _EVENT

    def __init__(self, configuration: Line | Values) -> None:
        self._configuration = _bytes(configuration)
        self._at = ctypes.c_void_p()
        self._ref = ctypes.byref(self._at)
        self._lock = threading.Lock()
        self._part = ctypes.create_string_buffer(_PART)
        self._view = memoryview(self._part)
        self._finalizer = weakref.finalize(self, _call(self._prefix + "close"), self._ref)
        self._answer, self._reply = _call(self._prefix + "answer"), _call(self._prefix + "reply")

    def _raise(self, status: int, kind: int, line: bytes, refusal: type[ValueError] = BadLine) -> typing.NoReturn:
        """Raises what a status means that isn't 0, after a line that should have been of this kind."""
        if status == _NONE:
            raise Closed("it is closed")
        if status == _BAD_LINE:
            raise _bad_line(kind, self._configuration, line)
        if status == _REFUSED:
            raise refusal()
        raise MemoryError("it is closed now")

    def _kept(self, call: typing.Any) -> bytes:
        """All that one of the copying calls has."""
        length = call(self._ref, self._part, _PART)
        if length <= _PART:
            return bytes(self._view[:length])
        return _copied(lambda out, size: int(call(self._ref, out, size)))

    @typing.overload
    def answer(self, line: Line) -> str: ...

    @typing.overload
    def answer(self, line: Values) -> dict[str, typing.Any]: ...

    def answer(self, line: Line | Values) -> str | dict[str, typing.Any]:
        """Gives it a line, and returns the line that it answers, without a line feed; or a dict, and returns a dict, of
        several lines the last.

        Raises BadLine, and UnicodeEncodeError of a str that has no UTF-8 form, after which all is as it was; Closed;
        MemoryError, and of a Journal OSError if a call on its file fails, after which it is closed: open it again. So
        is a Journal by what a signal's handler raises. ESTALE says that the file was replaced, or that somebody else
        changed its length: one that was replaced or made shorter is an older copy, which must not go on
        (docs/RUNNING.md, Faults and crashes).
        """
        data = _bytes(line)
        with self._lock:
            text = self._answered(data)[:-1].decode()
        return text if isinstance(line, (str, bytes)) else typing.cast(dict[str, typing.Any], _last(text))

    def _answered(self, data: bytes) -> bytes:
        """What it answers to a line."""
        status = self._answer(self._ref, data, len(data))
        if status != _OK:
            self._raise(status, self._kind, data)
        return self._kept(self._reply)

    def reply(self) -> str:
        """The last answer once more, without a line feed; empty if there was none, or it is closed."""
        with self._lock:
            return self._kept(self._reply)[:-1].decode()

    def close(self) -> None:
        """Ends it, and gives its memory back. A second time does nothing."""
        with self._lock:
            self._finalizer()

    def __enter__(self: _Self) -> _Self:
        return self

    def __exit__(self, *_: object) -> None:
        self.close()


class Bank(_Handle):
    """All sites of a configuration, with the messages between them, before any command."""

    _prefix = "rbbank_"
    _kind = _COMMAND

    def __init__(self, configuration: Line | Values) -> None:
        """Raises BadLine if the line is no configuration, and MemoryError."""
        super().__init__(configuration)
        data = self._configuration
        status = _call("rbbank_open")(self._ref, data, len(data))
        if status != _OK:
            self._raise(status, _CONFIG, data)


def _sent(message: dict[str, typing.Any]) -> Message:
    """A message of an answer, as its line, and the site that it is for."""
    line = json.dumps(message, separators=(",", ":"), sort_keys=True)
    return Message(line, message["token"][1] if "token" in message else None)


class _Sending(_Handle):
    """A site, whose answers have messages."""

    def sends(self) -> list[Message]:
        """The messages of the last answer or replay, on all its lines. Raises Closed; MemoryError, after which the site
        is as it was."""
        length, to = ctypes.c_size_t(), ctypes.c_uint8()
        with self._lock:
            # (the status says whether there are any; by its index each would be looked for from the first)
            send = _call(self._prefix + "send")
            status = send(self._ref, 0, None, 0, ctypes.byref(length), ctypes.byref(to))
            answer = self._kept(self._reply) if status == _OK else b""
        if status == _NONE:
            raise Closed("it is closed")
        if status == _NO_MEMORY:
            raise MemoryError
        return [_sent(message) for line in answer.splitlines() for message in json.loads(line).get("sends", [])]


class Site(_Sending):
    """Site `me`, 0 to 15, of a configuration, before any event.

    Its journal is the caller's: the entries after the opening, and then those after each answer, which are written
    where they last before anyone sees the answer. To go on after a crash, open the site again, see that the journal
    begins with its entries (else it is another bank's, and might be replayed all the same), and give it each whole line
    of the journal after the first by `replay`, up to one that doesn't begin with `{`. A journal that ends in a line
    feed and a TAB is sealed: no site goes on from it.

    A request or a batch may have a further key `"id"`, 1 to 64 characters of `A-Z a-z 0-9 . _ : -`. Once it is made,
    the same line is answered by `{"again":true,"id":..}` with the same reply and messages, and another request of the
    id by `{"refused":25}`. Neither changes anything or has entries.

    A question changes nothing and has no entries: `{"about":"site"}`, or `{"resend":N}`, N 0 to 100,000,000, whose
    answer has a line `{"sends":[..]}` before its last for each of the last N entries that sent any message.
    """

    _prefix = "rbbank_site_"

    def __init__(self, me: int, configuration: Line | Values) -> None:
        """Raises BadLine if the line is no configuration, NoSuchSite, and MemoryError."""
        if not 0 <= me <= 255:
            raise NoSuchSite
        super().__init__(configuration)
        data = self._configuration
        status = _call("rbbank_site_open")(self._ref, me, data, len(data))
        if status != _OK:
            self._raise(status, _CONFIG, data, NoSuchSite)

    def entries(self) -> bytes:
        """The lines for the journal, each with its line feed: of the configuration after the opening, and of the last
        answer's entries, none if it recorded nothing, and none after a replay."""
        with self._lock:
            return self._kept(_call("rbbank_site_entries"))

    def replay(self, entry: Line) -> str:
        """Gives it the next line of its journal, in any spelling, and returns the line `{"sends":[..]}` of what the
        entry sent, or nothing if it sent nothing.

        Raises BadLine if it is no entry of this site, or has the id of an entry before, after which all is as it was;
        WrongReply, after which it is closed; Closed; MemoryError, after which it is closed.
        """
        data = _bytes(entry)
        with self._lock:
            status = _call("rbbank_site_replay")(self._ref, data, len(data))
            if status != _OK:
                self._raise(status, _ENTRY, data, WrongReply)
            return self._kept(self._reply)[:-1].decode()


# ---- a site with its journal in a file

_WRITE, _CUT, _SYNC, _KEEP = 1, 2, 3, 6


def _write_all(descriptor: int, data: bytes, at: int) -> None:
    """Writes all bytes at a place."""
    while data:
        written = os.pwrite(descriptor, data, at)
        data, at = data[written:], at + written


def _sync_folder(path: str) -> None:
    """Waits until the names in a file's folder are on the disk."""
    descriptor = os.open(os.path.dirname(path), os.O_RDONLY | os.O_CLOEXEC)
    try:
        os.fsync(descriptor)
    finally:
        os.close(descriptor)


class _File:
    """A journal's file, locked against other processes."""

    def __init__(self, path: str, new: bool) -> None:
        try:
            self.descriptor = os.open(path, os.O_RDWR | os.O_CLOEXEC | (os.O_CREAT if new else 0), 0o666)
        except FileNotFoundError:
            if new:
                raise
            raise JournalFault("no journal") from None
        self._finalizer = weakref.finalize(self, os.close, self.descriptor)
        try:
            self.lock(path)
            if new and os.fstat(self.descriptor).st_size:
                raise JournalFault("there is a journal")
            self.path = os.path.realpath(path)
        except BaseException:
            self.close()
            raise

    def lock(self, path: str) -> None:
        """Locks it, or says that another process has it."""
        import fcntl
        try:
            fcntl.flock(self.descriptor, fcntl.LOCK_EX | fcntl.LOCK_NB)
        except BlockingIOError as why:
            raise BlockingIOError(why.errno, "the journal is in use", path) from None

    def read_whole(self) -> bytes:
        """All bytes, written again: after a wait for the disk that failed, the system may have what an earlier process
        wrote in its memory alone."""
        os.fsync(self.descriptor)
        with open(self.descriptor, "rb", closefd=False) as file:
            data = file.read()
        _write_all(self.descriptor, data, 0)
        os.fsync(self.descriptor)
        _sync_folder(self.path)
        return data

    def make(self, kind: int, at: int, data: bytes) -> None:
        """Makes a call that the library asks for. Raises OSError."""
        if kind == _WRITE:
            # The byte that makes a batch count is written alone; a start has to open the file that it is in. The
            # batch is written at the end.
            found = os.fstat(self.descriptor)
            if len(data) == 1 and not os.path.samestat(os.stat(self.path), found):
                raise OSError(errno.ESTALE, "the name leads to another file", self.path)
            if len(data) > 1 and at != found.st_size:
                raise OSError(errno.ESTALE, "somebody else changed its length", self.path)
            _write_all(self.descriptor, data, at)
        elif kind == _CUT:
            os.ftruncate(self.descriptor, at)
            os.fsync(self.descriptor)
        elif kind == _SYNC:
            os.fsync(self.descriptor)
        elif kind == _KEEP:
            self._keep(data)
        else:
            raise OSError(f"{self.path}: no call {kind} is known")

    def _keep(self, data: bytes) -> None:
        """Adds what is about to be cut off to the end of the file of the same name and `.cut`."""
        beside = self.path + ".cut"
        mode = os.fstat(self.descriptor).st_mode & 0o777
        descriptor = os.open(beside, os.O_RDWR | os.O_CREAT | os.O_CLOEXEC, mode)
        try:
            _write_all(descriptor, data, os.fstat(descriptor).st_size)
            os.fsync(descriptor)
        finally:
            os.close(descriptor)
        _sync_folder(beside)

    def close(self) -> None:
        """Closes it, and gives the lock back. A second time does nothing."""
        self._finalizer()
        self.descriptor = -1


class Journal(_Sending):
    """Site `me`, 0 to 15, of a configuration, whose journal is in a file: what was answered is on the disk before its
    reply can be seen. The file is the one that `rbbank site` has, and either goes on from it; an empty one is begun,
    with `new` or without. It is for a Unix system, and for one process: a fork shares handle and lock, so open it after
    the fork.

    A line is answered as a `Site` does, with BadLine if it is no event and no question: `reply` is then the line
    `{"bad":..}` of `rbbank site`, with its number, where the configuration's line is the first. A blank line is
    answered by nothing.

    >>> import tempfile
    >>> configuration = {"accounts": [["ann", 0]], "sites": 2, "version": 1}
    >>> with tempfile.TemporaryDirectory() as folder:
    ...     path = os.path.join(folder, "0.journal")
    ...     with Journal(path, 0, configuration, new=True) as site:  # the first start alone
    ...         site.answer({"deposit": ["ann", 500]})["reply"]
    ...     with Journal(path, 0, configuration, resend=100_000_000) as site:  # each later one
    ...         site.answer({"balance": "ann"})["reply"]
    {'kind': 'deposit', 'name': 'B0.1'}
    {'balance': 500}
    """

    _prefix = "rbbank_journal_"
    _faults = {5: "another bank's journal", 6: "bad line", 7: "wrong reply", 8: "damaged", 9: "sealed"}

    def __init__(self, path: str | os.PathLike[str], me: int, configuration: Line | Values, resend: int = 0,
                 new: bool = False) -> None:
        """Opens the journal at this path, or with `new` begins a new one there. Only then the file is made: a mistyped
        name, or a disk that isn't mounted, is never a new site, which would make other operations under names that are
        taken. The reply is then what the last `resend` entries sent, a line for each that sent any: with 0 what a crash
        kept from the other sites isn't sent.

        Raises BadLine if the configuration's line isn't one; NoSuchSite; JournalFault; BlockingIOError if another
        process has the journal, or this one; OSError if the file fails; MemoryError. With `new` a file may have been
        made then, empty or with a part of the first line: it is opened without `new`.
        """
        if not 0 <= me <= 255:
            raise NoSuchSite
        super().__init__(configuration)
        self._number = 1
        self._file = _File(os.fspath(path), new)
        try:
            self._open(me, self._configuration, resend)
        except BaseException:
            self.close()
            raise

    def _open(self, me: int, data: bytes, resend: int) -> None:
        """Opens the site over the file, and repairs its end."""
        before, line = self._file.read_whole(), ctypes.c_uint64()
        status = _call("rbbank_journal_open")(self._ref, me, resend, data, len(data), before, len(before),
                                              ctypes.byref(line))
        if status in self._faults:
            reason = self._faults[status]
            fault = _bad_line_of(_ENTRY, before, line.value) if reason == "bad line" else None
            raise JournalFault(reason, line.value or None, fault)
        if status != _OK:
            self._raise(status, _CONFIG, data, NoSuchSite)
        self._make_calls()

    def _make_calls(self) -> None:
        """Makes the calls that are left, one after another, and none after one that failed."""
        length, at, kind = ctypes.c_size_t(), ctypes.c_uint64(), 0
        call, done = _call("rbbank_journal_call"), _call("rbbank_journal_done")

        def given(out: typing.Any, size: int) -> int:
            nonlocal kind
            kind = call(self._ref, out, size, ctypes.byref(length), ctypes.byref(at))
            return length.value

        data = _copied(given)
        while kind != 0:
            self._file.make(kind, at.value, data)
            done(self._ref, 1)
            data = _copied(given)

    def _answered(self, data: bytes) -> bytes:
        """What it answers to a line; all that was recorded is on the disk then. Whatever ends it in the middle closes
        it: what is on the disk is known by opening it again."""
        self._number += 1
        try:
            status = self._answer(self._ref, self._number, data, len(data))
            if status != _OK:
                self._raise(_NONE if status == _NONE else _NO_MEMORY, self._kind, data)
            self._make_calls()
            reply = self._kept(self._reply)
        except BaseException:
            self._finalizer()
            self._file.close()
            raise
        if reply.startswith(b'{"bad":'):
            raise _bad_line(self._kind, self._configuration, data)
        return reply

    def close(self) -> None:
        """Ends it, and gives the file back. A second time does nothing."""
        super().close()
        self._file.close()


# ---- whole runs

def _grown(name: str, thought: int, given: tuple[typing.Any, ...], *more: typing.Any) -> tuple[int, int, str]:
    """Calls from bytes to bytes, again where the output is longer than thought: the status, the number, the output."""
    written, number = ctypes.c_size_t(), ctypes.c_uint64(thought)
    status = 3
    while status == 3:
        size = number.value
        out = ctypes.create_string_buffer(size)
        status = _call(name)(*given, out, size, ctypes.byref(written), ctypes.byref(number), *more)
    if status == _NO_MEMORY:
        raise MemoryError
    return status, number.value, ctypes.string_at(out, written.value).decode()


def _run(name: str, kind: int, lines: Line) -> tuple[int, str]:
    """Runs a call from lines of this kind to lines: its status, and the output."""
    data = _bytes(lines)
    status, number, text = _grown(name, 4096 + len(data), (data, len(data)))
    if status == _BAD_LINE:
        raise LineFault(number, text, _bad_line_of(kind, data, number) if number else None)
    return status, text


def script(lines: Line) -> str:
    """The replies to a script: a configuration and commands in, a line out for each command.

    Raises LineFault and MemoryError.
    """
    return _run("rbbank_script", _COMMAND, lines)[1]


def migrate(lines: Line) -> str:
    """Histories of either version, written in version 2. Raises LineFault and MemoryError."""
    return _run("rbbank_migrate", _ENTRY, lines)[1]


def audit(histories: Line) -> Audit:
    """Whether one world can have recorded these histories: a configuration and then entries, a line each.

    Raises LineFault and MemoryError.
    """
    status, text = _run("rbbank_audit", _ENTRY, histories)
    return Audit(status == 0, text[:-1])


# What a status of closing means, in the program's words.
_REASONS = {2: "bad line", 5: "not sealed", 6: "another bank's journal", 7: "another site's entry",
            8: "number of journals", 9: "number of sites", 10: "there is one already", 11: "no name",
            12: "too many accounts", 13: "no journal"}


def _close_fault(status: int, number: int, journal: int, journals: list[bytes], accounts: list[str]) -> CloseFault:
    """What a status above 1 means, with its number and its journal, of these journals and accounts."""
    reason = _REASONS[status]
    if reason in ("not sealed", "another bank's journal"):
        return CloseFault(reason, f"journal {journal}: {reason}", journal)
    if reason in ("bad line", "another site's entry"):
        fault = _bad_line_of(_ENTRY, journals[journal], number) if reason == "bad line" else None
        return CloseFault(reason, f"journal {journal}: line {number}: {reason}", journal, number, fault=fault)
    if reason in ("there is one already", "no name"):
        return CloseFault(reason, f"account {accounts[number]}: {reason}", account=accounts[number])
    more = {"number of journals": f"{len(journals)} journals for {number} sites",
            "number of sites": "not 2 to 16 sites"}
    return CloseFault(reason, more.get(reason, reason))


def _name(account: str) -> bytes:
    """The line of a name. One with a line feed in it is no name, and so is an empty one."""
    return (b"" if "\n" in account else account.encode("utf-8", "surrogatepass")) + b"\n"


def close(journals: typing.Iterable[bytes], sites: int | None = None, accounts: typing.Iterable[str] = ()) -> Books:
    """Closes a bank's books by the sealed journals of all its sites, in the order of their numbers.

    The next bank has `sites` sites, 2 to 16, or as many as before, and these accounts after the others.

    >>> configuration, journals = '{"accounts":[["ann",0]],"sites":2,"version":1}', []
    >>> for me in range(2):
    ...     with Site(me, configuration) as site:
    ...         journals.append(site.entries() + b"\\t")  # nothing happened, and it is sealed
    >>> close(journals, sites=3, accounts=["zed"]).line.partition(',"blue"')[0]
    '{"accounts":[["ann",0],["zed",0]]'
    >>> close(journals[:1])
    Traceback (most recent call last):
    rbbank.CloseFault: 1 journals for 2 sites

    Raises CloseFault for the first thing that is wrong with the number of sites, with the names, or with a journal and
    then those after it; MemoryError.
    """
    if isinstance(accounts, (str, bytes)):
        raise TypeError("accounts: a list of names")
    files, added = list(journals), list(accounts)
    data, names = b"".join(files), b"".join(map(_name, added))
    lengths = (ctypes.c_size_t * len(files))(*map(len, files))
    # 0 asks for as many as before, and no bank has 1.
    asked = 0 if sites is None else sites if 2 <= sites <= 16 else 1
    journal = ctypes.c_uint64()
    given = (asked, names, len(names), data, len(data), lengths, len(files))
    status, number, text = _grown("rbbank_close_books", 4096 + len(names), given, ctypes.byref(journal))
    if status > 1:
        raise _close_fault(status, number, journal.value, files, added)
    return Books(status == 0, text[:-1])
