"""What a step of a drawing says: its mark, its words in short, and its colour."""
import re
from typing import NamedTuple

from bank import TAKES, fields, refusal


class Said(NamedTuple):
    """The mark; what is named, and what is said of it; the colour; and whether what came changes nothing."""

    mark: str
    head: str
    rest: str
    colour: str
    is_late: bool = False

    @property
    def line(self):
        """Both in one line."""
        between = ": " if self.mark in "✕?" and self.rest else " "
        return f"{self.head}{between}{self.rest}".strip()


def colour_of(name):
    return "red" if name.startswith("R") else "blue"


def request(event):
    """A request in short."""
    said = {"rate": lambda rate: f"{rate / 100:g}\u00a0%", "to": lambda account: f"→ {account}"}
    parts = (said.get(field, str)(part) for field, part in fields(event).items())
    return " ".join([next(verb for verb in TAKES if verb in event), *parts])


def asked(step):
    """What a site was asked, in short."""
    event, verb = step.event, step.verb
    short = {
        "batch": lambda: f"batch of {len(event['batch'])}",
        "deliver": lambda: f"message {event['deliver']}",
        "shadow": lambda: f"{event['shadow']['name']} comes",
        "token": lambda: f"token {event['token'][0]} comes",
        "pass": lambda: f"pass to site {event['pass']}",
        "balance": lambda: event["balance"],
        "asof": lambda: "{} after {}".format(*event["asof"]),
    }
    return short[verb]() if verb in short else request(event)


def said_of_token(step):
    reply = step.reply
    if "passed" in reply:
        return Said("◆", f"token {reply['passed']}", f"→ site {step.event['pass']}", "token")
    if "taken" in reply:
        return Said("◆", f"token {reply['taken']}", "taken", "token")
    return Said("=", f"token {reply['stale']}", "stale", "again", True)


def said_of_operation(step):
    reply = step.reply
    beside = "".join(f", {key} {it}" for key, it in step.beside.items())
    if "kind" in reply:
        declined = "declined: " if reply["kind"] == "declined" else ""
        return Said("●", reply["name"], declined + request(step.event) + beside, colour_of(reply["name"]))
    if "names" in reply:
        colour = "red" if any(name[0] == "R" for name in reply["names"]) else "blue"
        return Said("●", "batch", " ".join(reply["names"]) + beside, colour)
    key, mark = next((key, mark) for key, mark in (("held", "○"), ("applied", "◉"), ("already", "=")) if key in reply)
    word = "again" if key == "already" else key
    return Said(mark, reply[key], word, "again" if key == "already" else colour_of(reply[key]), key == "already")


def said(step):
    """What a step says, found once."""
    step.said = step.said or said_anew(step)
    return step.said


def said_anew(step):
    reply = step.reply
    if "refused" in reply:
        return Said("✕", asked(step), f"{refusal(reply)} ({reply['refused']})", "refused", True)
    if any(key in reply for key in ("passed", "taken", "stale")):
        return said_of_token(step)
    if "rows" in reply:
        rows = len(reply["rows"])
        return Said("?", asked(step), f"{rows} row{'' if rows == 1 else 's'}, {reply['balance']}", "asked")
    if "balance" in reply:
        return Said("?", asked(step), str(reply["balance"]), "asked")
    return said_of_operation(step)


def balances(step, config):
    """The balances beside a change: each account once, as it is after all that the step did."""
    last = {account: balance for account, balance, _ in step.has}
    if len(config["accounts"]) == 1:
        return "".join(str(balance) for balance in last.values())
    return ", ".join(f"{account}\u00a0{balance}" for account, balance in last.items())


def wrapped(text, width, indent=""):
    """The text in lines of this width, the later ones indented. A number begins no line."""
    if len(text) > width:
        text = re.sub(r" (?=\(\d+\)$|\d+\)?,?( |$))", "\u00a0", text)
    lines, line = [], ""
    for word in text.split(" "):
        if line.strip() and len(line) + 1 + len(word) > width:
            lines.append(line)
            line = indent
        line += word if not line.strip() else " " + word
        while len(line) > width:
            lines.append(line[:width])
            line = indent + line[width:]
    return [each.replace("\u00a0", " ") for each in [*lines, line] if each.strip()]
