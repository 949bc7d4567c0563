#!/usr/bin/env python3
"""Asks the playground's server what its page asks, with no browser, and compares with runs of the program.

usage: check.py [--quiet] PROGRAM      (--quiet prints only what is different)

Every script that from_rows.py knows and those of play/runs, line by line as the page gives them, and back again. The
balances have to be those that the program answers, and each operation that was made has to be known. Each site of a
script is started from its journal, and has to have the same balances. Then the histories, migrations and journals of
examples/, the puzzles, what is known of messages, and what the server answers to requests that aren't its page's.
"""
from __future__ import annotations

import glob
import http.client
import itertools
import json
import os
import sys
import threading
from typing import Any

sys.dont_write_bytecode = True
import child
import answers
import bank
import from_rows
import play
import world

PUZZLES = os.path.join(play.PAGE, "puzzles.json")
NO_HISTORIES = {"site_id_of_a_balance.site"}  # journals that have a line which is no entry of any history
PROBLEMS: list[str] = []


def same(name: str, what: str, found: Any, wanted: Any) -> None:
    if found != wanted:
        PROBLEMS.append(f"{name}: {what}\n  found  {str(found)[:300]}\n  wanted {str(wanted)[:300]}")


class Check:
    """The server's answers, beside runs of the program."""

    def __init__(self, program: bank.Program) -> None:
        self.program, self.asked = program, answers.Answers(program)

    def replies(self, lines: list[str]) -> list[str]:
        return self.program.run("script", "\n".join([*lines, ""]).encode()).replies

    def world(self, text: str) -> dict[str, Any]:
        return json.loads(self.asked.world(text.encode()))

    def by_lines(self, name: str, lines: list[str], wanted: list[str]) -> dict[str, Any]:
        """A script's replies forward, back and on again. Forward one program answers all. A long script goes forward
        by some lines at once."""
        ends = [*range(1, len(lines), 1 + len(lines) // 40), len(lines), len(lines) // 2, len(lines)]
        found, process, last = {}, None, 0
        for end in ends:
            found = self.world("\n".join([*lines[:end], ""]))
            replies = [step["reply"] for step in found["steps"]]
            same(name, f"replies to {end} lines", replies, [json.loads(line) for line in wanted[:len(replies)]])
            pid = self.asked.session.process and self.asked.session.process.pid
            if 2 <= last < end < len(lines):
                same(name, f"the program that goes on at line {end}", pid, process)
            process, last = pid, end
        same(name, "number of replies", len(found["steps"]), len(wanted))
        if found["steps"] and not found["error"]:
            last = self.world("\n".join([*lines[:-1], '{"apply":"R9","site":0}', ""]))["steps"][-1]["reply"]
            same(name, "another last line", last in ({"refused": 14}, {"refused": 23}), True)
        return self.world("\n".join([*lines, ""]))

    def balances(self, config: dict[str, Any], lines: list[str], wanted: list[str]) -> dict[int, dict[str, int]]:
        """What the program answers for each account at each site, at the end of a script."""
        names, done = [name for name, _ in config["accounts"]], self.done(lines, wanted)
        asked = [bank.compact({"balance": name, "site": site}) for site in range(config["sites"]) for name in names]
        begin = bank.compact(config | {"history": world.LARGEST_HISTORY})
        said = iter(self.replies([begin, *done, *asked])[len(done):])
        return {site: {name: json.loads(next(said))["balance"] for name in names} for site in range(config["sites"])}

    def done(self, lines: list[str], wanted: list[str]) -> list[str]:
        return [line for line, reply in zip(lines[1:], wanted) if reply != '{"refused":23}']

    def script(self, name: str, text: str) -> None:
        """A script, line by line, and what is made of it."""
        lines = text.rstrip("\n").split("\n")
        wanted = self.replies(lines)
        found = self.by_lines(name, lines, wanted)
        made = [message["what"] for message in found["messages"] if not message["token"]]
        same(name, "the operations that are known", list(found["operations"]), made)
        if found["error"] or not found["steps"]:
            return
        config = found["config"]
        has = {site: dict(config["accounts"]) for site in range(config["sites"])}
        for step in found["steps"]:
            has.get(step["site"], {}).update({account: balance for account, balance, _ in step["has"]})
        balances = self.balances(config, lines, wanted)
        same(name, "balances", has, balances)
        self.made(name, text, config, balances)

    def made(self, name: str, text: str, config: dict[str, Any], balances: dict[int, dict[str, int]]) -> None:
        """What else is made of a script: histories, sites that start from journals, the next bank, a picture."""
        data = text.encode()
        histories = "\n".join([*self.program.run("histories", data).replies, ""])
        same(name, "its histories", self.asked.written("histories", data), histories)
        for site in range(config["sites"]):
            again = json.loads(self.asked.crash(site, data))
            same(name, f"site {site} after a crash", dict(again["has"]), balances[site])
        closed = json.loads(self.asked.close_books(data))
        if "fault" not in closed:
            for site in range(config["sites"]):
                same(name, f"what is carried forward from site {site}", dict(closed["accounts"]), balances[site])
            next_bank = bank.compact(closed)
            same(name, "the next bank", self.replies([next_bank, '{"balance":"?","site":0}']), ['{"refused":1}'])
        else:
            same(name, "why it isn't closed", closed["fault"] in ("open", "limit"), True)
        same(name, "picture", self.asked.picture(data)[:5], "<svg ")


def check_files(check: Check) -> None:
    """The histories of examples/ have the verdicts that are stored; migrations and journals are histories. What people
    read comes first, and the journals of tests, which no other group has, come last."""
    groups = [next(kinds) for _, kinds in itertools.groupby(each["kind"] for each in play.examples())]
    same("examples", "groups", groups, ["Scripts", "Histories", "Migrations", "Scripts with a bad line",
                                        "Journals of tests"])
    for each in play.examples():
        data = bank.read(each["file"])
        if each["kind"] == play.HISTORIES:
            found = json.loads(check.asked.world(data))
            wanted = bank.read(each["file"].removesuffix("jsonl") + "expected").decode().strip()
            same(each["name"], "verdict", bank.compact(found["verdict"]) if found["verdict"] else "", wanted)
        elif each["kind"] == play.MIGRATIONS:
            found = json.loads(check.asked.world(check.asked.written("migrate", data).encode()))
            same(each["name"], "histories of version 2", (found["histories"], found["config"]["version"]), (True, 2))
        elif each["kind"] == play.JOURNALS:
            found = json.loads(check.asked.world(data))
            count = 0 if each["name"] in NO_HISTORIES else max(0, len(world.lines_of(data)) - 1)
            same(each["name"], "entries", len(found["steps"]) if not found["error"] else 0, count)


def check_puzzles(check: Check) -> None:
    """What the page shows of each puzzle is refused as it says, and never is a balance below zero."""
    for puzzle in json.loads(bank.read(PUZZLES)):
        commands = [each for each in puzzle["show"] if "do" not in each]
        found = check.world("\n".join(map(bank.compact, [puzzle["bank"], *commands, ""][:-1])) + "\n")
        same(puzzle["title"], "number of replies", len(found["steps"]), len(commands))
        refused = [step["reply"]["refused"] for step in found["steps"] if "refused" in step["reply"]]
        same(puzzle["title"], "refusals", refused, puzzle["refused"])
        same(puzzle["title"], "below zero", [has for step in found["steps"] for has in step["has"] if has[1] < 0], [])


def check_messages(check: Check) -> None:
    """What is known of messages, some of which came nowhere, also if a bad line is behind them."""
    lines = ['{"accounts":[["ann",500],["bob",0]],"history":5,"sites":3,"version":2}',
             '{"deposit":["bob",5],"site":2}', '{"deliver":1,"site":0}', '{"apply":"B2.1","site":0}',
             '{"withdraw":["ann",7],"site":0}', '{"pass":1,"site":0}', '{"transfer":["ann","bob",2],"site":2}',
             '{"cancel":"R1","site":0}', '{"bad":1}', ""]
    found, known = check.world("\n".join(lines)), {"account": "ann", "amount": 7, "home": 0}
    same("messages", "the bad line", found["bad_line"], 9)
    same("messages", "tokens", [message["token"] for message in found["messages"]], [None, None, [1, 1, 1], None])
    same("messages", "operations", found["operations"], {
        "B2.1": {"account": "bob", "amount": 5, "deps": [[], 0], "home": 2, "kind": "deposit", "name": "B2.1"},
        "R1": known | {"deps": [[[2, 1]], 0], "kind": "withdraw", "name": "R1"},
        "B0.1": known | {"deps": [[[2, 1]], 1], "kind": "cancel", "name": "B0.1", "target": "R1"}})


def check_closing(check: Check) -> None:
    """What keeps a bank open, in words that are written here."""
    config, row = '{"accounts":[["ann",0]],"sites":2,"version":1}', '{"deposit":["ann",500],"site":0}'
    rows = [([row], {"fault": "open", "lacks": [[], ["B0.1"]]}),
            ([row, '{"deliver":1,"site":1}'], {"fault": "open", "lacks": [[], ["B0.1"]]}),
            ([row, '{"deliver":1,"site":1}', '{"apply":"B0.1","site":1}'],
             LIMITS | {"accounts": [["ann", 500]], "sites": 2, "version": 1}),
            ([], LIMITS | {"accounts": [["ann", 0]], "sites": 2, "version": 1})]
    for lines, wanted in rows:
        same("closing", lines, json.loads(check.asked.close_books("\n".join([config, *lines, ""]).encode())), wanted)


LIMITS = {"blue": 1_000_000, "epoch": 4_000_000_000, "history": 100_000_000, "inbox": 4096, "red": 1_000_000}
BANK = b'{"accounts":[["ann",0]],"sites":2,"version":1}\n'
ASKED = [
    (200, "GET", "/"), (200, "GET", "/page.css"), (200, "GET", "/page.js"), (200, "GET", "/puzzles.json"),
    (200, "GET", "/examples"), (200, "GET", "/examples/stale_token"), (404, "GET", "/play.py"),
    (404, "GET", "/../play.py"), (404, "GET", "/examples/../play/play"), (404, "GET", "/examples/%2e%2e/bank"),
    (200, "POST", "/world", BANK), (200, "POST", "/world", b""), (200, "POST", "/world", b"\xff\n\x00\n"),
    (200, "POST", "/world", BANK + b"[" * 20000), (200, "POST", "/world", BANK + b'{"deposit":["ann",1e3],"site":0}'),
    (200, "POST", "/world", BANK + b'{"cancel":7,"site":0}\n'), (422, "POST", "/histories", BANK + b"{}\n"),
    (422, "POST", "/histories", b""), (422, "POST", "/picture", b"{}"), (422, "POST", "/migrated", b"{}"),
    (200, "POST", "/crash/0", BANK), (422, "POST", "/crash/9", BANK), (403, "POST", "/crash/x", BANK),
    (200, "POST", "/close", BANK), (422, "POST", "/close", b"{}"), (403, "POST", "/other", b""),
]


def check_server(check: Check) -> None:
    """What isn't this machine's page gets nothing, and no bad input a traceback."""
    with play.Server(check.asked, 0) as serving:
        threading.Thread(target=serving.serve_forever, daemon=True).start()

        def status(method: str, path: str, body: bytes | None = None, **headers: str) -> int:
            link = http.client.HTTPConnection("127.0.0.1", serving.server_port, timeout=60)
            link.request(method, path, body, {"Host": f"127.0.0.1:{serving.server_port}"} | headers)
            answer = link.getresponse()
            answer.read()
            link.close()
            return answer.status
        for wanted, *asked in ASKED:
            same("server", str(asked)[:80], status(*asked), wanted)
        same("server", "another host", status("GET", "/", Host="evil.example"), 403)
        same("server", "another origin", status("POST", "/world", b"", Origin="http://evil.example"), 403)
        same("server", "no length", status("POST", "/world", b"", **{"Content-Length": "-1"}), 403)
        serving.shutdown()


def main() -> int:
    words = [word for word in sys.argv[1:] if word != "--quiet"]
    if len(words) != 1 or words[0].startswith("-"):
        print(__doc__)
        return 0 if words in (["--help"], ["-h"]) else 2
    check, scripts = Check(bank.program(words[0])), {name: text for name, (text, _) in from_rows.rows().items()}
    for path in sorted(glob.glob(os.path.join(child.HERE, "runs", "*.jsonl"))):
        scripts[os.path.basename(path)] = bank.read(path).decode()
    for each in play.examples():
        if each["kind"] == play.BAD:
            scripts[each["name"]] = bank.read(each["file"]).decode()
    for name, text in scripts.items():
        check.script(name, text)
    for part in (check_files, check_puzzles, check_messages, check_closing, check_server):
        part(check)
    check.asked.close()
    print("\n".join(PROBLEMS), end="\n" if PROBLEMS else "")
    if "--quiet" not in sys.argv:
        print(f"{len(scripts)} scripts, {len(PROBLEMS)} problems")
    return 1 if PROBLEMS else 0


if __name__ == "__main__":
    bank.stops_in_words("check", main)
