"""What the page asks, answered by the program."""
from __future__ import annotations

import json
import os
import subprocess
import tempfile
import threading
from typing import Any

from child import Child
import bank
import draw
import explain
import picture
import saying
import world

Json = dict[str, Any]
TORN = ' "event":{"deposit":["ann",1]},"reply":{"ki'  # the gate, and what a crash left of a write behind it
SEALED = "\t"  # a sealed journal's gate


class Answers:
    """One running program is given each line of the page's script that it hasn't had. What its replies don't say is
    asked of another, with room for questions, so that no question is in the script's histories."""

    def __init__(self, program: bank.Program) -> None:
        self.program, self.lock, self.session = program, threading.Lock(), Child(program)

    def close(self) -> None:
        self.session.close()

    def of_script(self, data: bytes) -> world.World:
        """The steps of a script, as far as it comes."""
        lines = world.lines_of(data)
        config = world.parsed(lines[0][1]) if lines else None
        if len(lines) < 2:
            run = self.program.run("script", data)
            return world.World(config, [], error=run.said, bad_line=run.bad_line)
        replies, error = self.session.run(data.rstrip(b"\n").split(b"\n"))
        found = world.World(config or {}, [], error=bank.said(error), bad_line=bank.Run("", error, 2).bad_line)
        world.add_steps(found, lines[1:], replies)
        return found

    def whole(self, data: bytes) -> world.World:
        """The same of a script that is answered whole."""
        found = self.of_script(data)
        if found.error or found.config is None:
            raise bank.Stop(found.error)
        return found

    def again(self, word: str, found: world.World, *more: str) -> list[str]:
        """What the program writes of what was done and more behind it, in a bank whose histories take both."""
        begin = bank.compact(found.config | {"history": world.LARGEST_HISTORY})
        done = [world.as_command(step) for step in found.steps if step.taken and step.reply != {"refused": 23}]
        run = self.program.run(word, "\n".join([begin, *done, *more, ""]).encode())
        return raised(run.said) if run.fault else run.replies

    def recorded(self, found: world.World) -> list[Json]:
        """The entries of what was done; behind them each message came to one more site, so that it's there as it was
        sent, and statements were asked, whose balances are put beside the steps."""
        sites = found.config["sites"]
        makers = [found.steps[at].site for at, _ in found.senders if found.steps[at].taken]
        brought = [bank.compact({"deliver": n, "site": (at + 1) % sites}) for n, at in enumerate(makers, 1)]
        asked = world.questions(found.config, [(step.site, step.event) for step in found.steps])
        entries = [json.loads(line) for line in self.again("histories", found, *brought, *asked)[1:]]
        last = {(it["site"], it["event"].get("statement")): it["reply"] for it in entries}
        keys = [(it["site"], it["statement"]) for it in map(json.loads, asked)]
        world.add_balances(found, world.balances(asked, [bank.compact(last[key]) for key in keys]))
        return entries

    def world(self, data: bytes) -> str:
        """What happened, for the page."""
        are_histories = world.are_histories(world.lines_of(data))
        found = world.of_histories(self.program, data) if are_histories else self.of_script(data)
        words = list(explain.of_histories(found, data)) if are_histories and (found.config or found.error) else []
        if found.error:
            words = found.error.split("\n")
        events = [step.event for step in found.steps]
        events += [entry["event"] for entry in self.recorded(found)] if events else []
        tokens = {f"token {it['token'][0]}": it["token"] for it in events if "token" in it}
        known = dict.fromkeys(what for _, what in found.senders)  # in the order of sending
        known |= {it["shadow"]["name"]: it["shadow"] for it in events if "shadow" in it}
        return json.dumps({
            "histories": found.is_histories, "config": found.config, "error": found.error, "words": words,
            "bad_line": found.bad_line, "verdict": found.verdict, "steps": [of_step(found, it) for it in found.steps],
            "messages": [{"step": at, "what": what, "token": tokens.get(what)} for at, what in found.senders],
            "operations": {name: shadow for name, shadow in known.items() if shadow}})

    def written(self, word: str, data: bytes) -> str:
        """What the program writes of a text: `histories` of a script, or `migrate` of histories."""
        run = self.program.run(word, data)
        if run.fault:
            raise bank.Stop(run.said)
        return "\n".join([*run.replies, ""])

    def picture(self, data: bytes) -> str:
        return picture.svg(draw.drawing_of(self.program, data))

    def crash(self, site: int, data: bytes) -> str:
        """Ends a site and starts it from its journal: what it sends again, and the balances that it has."""
        found = self.whole(data)
        if not 0 <= site < found.config["sites"]:
            raise bank.Stop("no such site")
        begin, *entries = self.again("histories", found)
        mine = [line for line in entries if json.loads(line)["site"] == site]
        applied = sum(len(step.changed) for step in found.steps if step.site == site)
        names = [name for name, _ in found.config["accounts"]]
        asked = [bank.compact({"asof": [name, applied]}) for name in names]
        lines, cut = self.restarted(site, "\n".join([begin, *mine, TORN]), "\n".join([begin, *asked, ""]))
        sent = [message for line in lines if "reply" not in line for message in line["sends"]]
        balances = [line["reply"]["balance"] for line in lines if "reply" in line]
        return json.dumps({"entries": len(mine), "cut": cut, "sent": sent, "has": list(zip(names, balances))})

    def restarted(self, site: int, journal: str, given: str) -> tuple[list[Json], str]:
        """What `rbbank site` writes over a journal that a crash left."""
        with tempfile.TemporaryDirectory() as folder:
            path = os.path.join(folder, f"{site}.journal")
            with open(path, "wb") as file:
                file.write(journal.encode())
            words = [*self.program.words, "site", "--me", str(site), "--journal", path]
            run = subprocess.run(words, input=given.encode(), capture_output=True, cwd=self.program.folder)
        errors = run.stderr.decode("utf-8", "replace").replace(path, f"{site}.journal").strip()
        if run.returncode:
            raise bank.Stop(errors or f"the site ended in {run.returncode}")
        return [json.loads(line) for line in run.stdout.decode().splitlines()], errors

    def close_books(self, data: bytes) -> str:
        """What `rbbank close` answers over the sites' journals: the next bank's configuration, or what is open."""
        begin, *entries = self.written("histories", data).splitlines()
        sites = json.loads(begin)["sites"]
        with tempfile.TemporaryDirectory() as folder:
            paths = [os.path.join(folder, f"{site}.journal") for site in range(sites)]
            for site, path in enumerate(paths):
                mine = [line for line in entries if json.loads(line)["site"] == site]
                with open(path, "w", encoding="utf-8") as file:
                    file.write("\n".join([begin, *mine, SEALED]))
            run = subprocess.run([*self.program.words, "close", *paths], capture_output=True, cwd=self.program.folder)
        if not run.stdout:
            raise bank.Stop(run.stderr.decode("utf-8", "replace").strip())
        return run.stdout.decode().strip()


def raised(why: str) -> Any:
    raise bank.Stop(why)


def of_step(found: world.World, step: world.Step) -> Json:
    """A step, for the page."""
    said = saying.said(step)
    return {"line": step.line, "site": step.site, "event": step.event, "reply": step.reply, "mark": said.mark,
            "head": said.head, "rest": said.rest, "colour": said.colour, "late": said.is_late, "came": step.came,
            "sent": step.sent, "changed": step.changed, "has": step.has, "taken": step.taken, "fault": step.fault,
            "balances": saying.balances(step, found.config), "words": explain.of_step(found, step)}
