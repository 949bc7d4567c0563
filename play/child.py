"""A running `rbbank script`: it is given a line, and answers it by a line."""
from __future__ import annotations

import os
import subprocess
import sys

HERE = os.path.dirname(os.path.abspath(__file__))
sys.path.insert(1, os.path.join(os.path.dirname(HERE), "examples", "tools"))
import bank  # noqa: E402


def is_blank(line: bytes) -> bool:
    """Whether the program skips a line."""
    return not line.strip(b" \t\r")


class Child:
    """The program as a child with a pipe. Where a script goes back, it is started again on fewer lines."""

    def __init__(self, program: bank.Program) -> None:
        self.program = program
        self.process: subprocess.Popen[bytes] | None = None
        self.given: list[bytes] = []
        self.replies: list[str] = []
        self.error = ""

    def start(self) -> None:
        self.close()
        self.process = subprocess.Popen([*self.program.words, "script"], cwd=self.program.folder, bufsize=0,
                                        stdin=subprocess.PIPE, stdout=subprocess.PIPE, stderr=subprocess.PIPE)
        self.out = os.fdopen(os.dup(self.process.stdout.fileno()), "rb")
        self.given, self.replies, self.error = [], [], ""

    def close(self) -> None:
        if self.process is not None:
            self.process.stdin.close()
            self.process.wait()
            for stream in (self.out, self.process.stdout, self.process.stderr):
                stream.close()
            self.process = None

    def put(self, line: bytes) -> None:
        """Gives it a line, all of it: a pipe may take a part."""
        left = memoryview(line + b"\n")
        try:
            while left:
                left = left[self.process.stdin.write(left):]
        except BrokenPipeError:
            pass  # it ended at an earlier line, which is seen where a reply is read

    def ask(self, line: bytes) -> str:
        """The reply to a line, or nothing if the program ended at it."""
        self.put(line)
        reply = self.out.readline()
        if not reply:
            self.error = self.process.stderr.read().decode("utf-8", "replace").strip() or "the program ended"
        return reply.decode().strip()

    def run(self, lines: list[bytes]) -> tuple[list[str], str]:
        """The replies to a script's lines as far as it comes, and the program's line on standard error."""
        if self.process is None or self.error or lines[:len(self.given)] != self.given:
            self.start()
        is_open = any(not is_blank(line) for line in self.given)
        for line in lines[len(self.given):]:
            self.given.append(line)
            if not is_open or is_blank(line):
                is_open = is_open or not is_blank(line)
                self.put(line)  # the configuration, and what is skipped, have no reply
                continue
            reply = self.ask(line)
            if self.error:
                break
            self.replies.append(reply)
        return self.replies, self.error
