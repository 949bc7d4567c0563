#!/usr/bin/env python3
"""Runs a script, the audit of histories, or a site, and says in words what happened.

A script: what each command did, with the meaning of each refusal. Histories: whether one world has them, else which
line is at fault, which entry that is, and what the site answers there. The lines of a site, as x.site.jsonl or with
--as site: what site --me answers to each over a new journal, what it sends and what it applies then. A bad line: the
line, a caret and the reason.

The status is the program's: 0, or 1 if an audit found a fault, or 2 at a bad line; but 0 if that is a later line of a
site, and 1 if FILE can't be read.
"""
import argparse
import json
import os
import tempfile

import bank
import saying
import world


WORDS = {
    "held": "held, and not applied yet",
    "already": "it came before, and changes nothing",
    "applied": "applied",
    "taken": "taken: this site has the token",
    "passed": "sent, with epoch {}: this site hasn't it any more",
    "stale": "stale: a token of epoch {} came or left here before, so nothing changes",
    "balance": "{}",
    "resent": "{} lines of messages sent again",
}


def options():
    reader = argparse.ArgumentParser(description=__doc__, formatter_class=argparse.RawDescriptionHelpFormatter)
    reader.add_argument("files", metavar="FILE", nargs="+",
                        help="a script, histories, journals of a bank or a site's lines; - is standard input")
    reader.add_argument("--as", dest="kind", choices=["script", "audit", "site"],
                        help="what to run; else a site by a name as x.site.jsonl, else a script or an audit")
    reader.add_argument("--me", metavar="S", type=int, default=0, help="the site of --as site, 0")
    reader.add_argument("--program", metavar="PATH", help=bank.WHICH)
    return reader.parse_args()


def request(event):
    """A request in words, or another command that has some."""
    found = bank.fields(event)
    if "rate" in found:
        found["rate"] = f"{found['rate'] / 100:g} %"
    return next(row["words"] for verb, row in bank.COMMANDS.items() if verb in event).format(**found)


def message(found, step):
    """A message in words: what it is, and the site that sent it."""
    if "deliver" in step.event and not step.came:
        return f"message {step.event['deliver']}"
    if step.came:
        at, what = found.senders[step.came - 1]
        return f"message {step.came}, {what} from site {found.steps[at].site},"
    return step.event["shadow"]["name"] if "shadow" in step.event else f"token {step.event['token'][0]}"


def asked(found, step):
    """What a site was asked, in words."""
    event = step.event
    if step.verb in ("deliver", "shadow", "token"):
        return f"{message(found, step)} comes"
    if step.verb == "batch":
        return f"a batch: {'; '.join(map(request, event['batch'])) or 'no request'}"
    if step.verb == "asof":
        account, count = event["asof"]
        when = {0: "before the first operation", 1: "after the first operation"}
        return f"the balance of {account} {when.get(count, f'after the first {count} operations')}"
    if "about" in event:
        return "what the site has"
    return f"the messages of its last {event['resend']} entries again" if "resend" in event else request(event)


def made(step):
    """What was made, in words."""
    name = step.reply["name"]
    if step.reply["kind"] == "declined":
        return f"declined, since there is less; {name} records it and moves nothing"
    colour = "red: only the holder of the token makes it" if name[0] == "R" else "blue: any site makes it"
    return f"made as {name}, {colour}"


def answered(found, step):
    """A reply in words. Of an account that isn't there the name: the first such one is why."""
    reply = step.reply
    if "refused" in reply:
        known = dict(found.config["accounts"])
        names = world.named_in(step.event) if 1 in (reply["refused"], reply.get("cause")) else []
        which = next((f" {name}" for name in names if name not in known), "")
        return f"refused with {reply['refused']}: {bank.refusal(reply, whole=True)}{which}"
    if "kind" in reply:
        return made(step)
    if "names" in reply:
        return f"made as {', '.join(reply['names'])}"
    if "rows" in reply:
        return f"from {reply['start']} by {len(reply['rows'])} operations to {reply['balance']}"
    if "about" in reply:
        return bank.compact(reply["about"])
    key = next(key for key in WORDS if key in reply)
    return WORDS[key].format(reply[key])


def of_step(found, step):
    balances = saying.balances(step, found.config).replace("\u00a0", " ")
    if balances and len(found.config["accounts"]) == 1:
        balances = f"{found.config['accounts'][0][0]} {balances}"
    beside = " and the ".join(f"{key} {it}" for key, it in step.beside.items())
    what = asked(found, step) + (f", by the {beside}," if beside else "")
    return f"site {step.site}: {what} -> {answered(found, step)}{f' [{balances}]' if balances else ''}"


def of_script(found, data):
    """The lines of an explained script."""
    wide = len(str(found.steps[-1].line)) if found.steps else 1
    for step in found.steps:
        yield f"line {step.line:>{wide}}  {of_step(found, step)}"
    if found.error:
        yield found.error
    elif not found.steps and found.config:
        yield f"A bank of {counted(found.config['accounts'], 'account')} at {found.config['sites']} sites. No command."


def counted(things, word):
    return f"{len(things)} {word}" + ("" if len(things) == 1 else "s")


def text_of(data, line, most=400):
    text = data.split(b"\n")[line - 1].decode("utf-8", "replace").strip()
    return text if len(text) <= most else text[:most] + " …"


def of_fault(found, step, data):
    """An entry at which an audit stops."""
    yield f"line {step.line}, entry {step.position} of site {step.site}:"
    yield f"  {text_of(data, step.line)}"
    yield f"  recorded: {asked(found, step)} -> {answered(found, step)}"
    if found.verdict["fault"] != "reply":
        yield f"  {step.fault}"
    elif found.answer is not None:
        right = world.Step(step.line, step.site, step.event, found.answer)
        yield f"  the site answers: {answered(found, right)}   {bank.compact(found.answer)}"
    elif step.fault != world.WRONG_REPLY:
        yield f"  {step.fault}"
    else:
        yield "  What the site answers can't be asked: it rests on a message that no entry sent."


def of_histories(found, data):
    """The lines of an explained audit."""
    if found.error:
        yield found.error
        return
    count, sites = len(found.steps), len({step.site for step in found.steps})
    entries, at_sites = f"{count} entr{'y' if count == 1 else 'ies'}", f"{sites} site{'' if sites == 1 else 's'}"
    if "order" in found.verdict:
        yield f"One world has these histories: {entries} at {at_sites}."
        yield "The audit found an order in which each reply is right, and each message is sent before it comes."
        return
    if found.verdict["fault"] == "reply":
        yield "No world has these histories: a site would not have recorded this reply after the entries before it."
    else:
        taken = sum(step.taken for step in found.steps)
        yield f"No world has these histories: {taken} of {entries} can be taken, and what is next waits for a message."
    for step in found.steps:
        if step.fault:
            yield from of_fault(found, step, data)
    yield from of_absent(found)


def of_absent(found):
    """Which sites sent what came, and have no entries here: an audit wants the journals of all."""
    here = {step.site for step in found.steps}
    homes = {step.event["shadow"]["home"] for step in found.steps if step.fault and "shadow" in step.event}
    absent = ", ".join(str(home) for home in sorted(homes - here) if home < found.config["sites"])
    if absent:
        yield f"No entry of site {absent} is here: an audit wants the histories of all sites together."


def name_of(message):
    """A message in short."""
    return message["shadow"]["name"] if "shadow" in message else f"token {message['token'][0]}"


def of_answer(found, data, number, event, answer, me):
    """A line of a site, with its answer."""
    if "bad" in answer:
        what = "line too long" if answer["bad"] == "long" else "bad line"
        why = [bank.said(answer["why"])] if "why" in answer else []
        return "\n  ".join([f"line {number}: {what}", *why, text_of(data, number)])
    step = world.Step(number, me, event, answer["reply"])
    again = "made before, so it is answered again: " if "again" in answer else ""
    words = [f"line {number}  site {me}: {asked(found, step)} -> {again}{answered(found, step)}"]
    if answer["sends"]:
        words.append(f"sends {', '.join(map(name_of, answer['sends']))}")
    for reply in answer["then"]:
        step = world.Step(number, me, {}, reply)
        words.append(f"then {reply['applied']}: applied" if "applied" in reply else f"then {answered(found, step)}")
    return "; ".join(words)


def of_site(program, data, me):
    """The lines of an explained site, and the status."""
    with tempfile.TemporaryDirectory() as folder:
        run = program.run("site", data, "--me", str(me), "--journal", os.path.join(folder, "journal"), "--new")
    answers = [answer for answer in map(json.loads, run.replies) if "reply" in answer or "bad" in answer]
    events = [(number, world.parsed(line) or {}) for number, line in world.lines_of(data)]
    found = world.World(events[0][1] if events else None, [])
    lines = [of_answer(found, data, *line, answer, me) for line, answer in zip(events[1:], answers)]
    if run.fault:
        lines.append(run.said)
    return lines, run.status


def status_of(found):
    """The program's status."""
    return 2 if found.error else 1 if "fault" in (found.verdict or {}) else 0


def explained(program, data, kind=None, me=0):
    """The lines that explain a file, and the status."""
    if kind == "site":
        return of_site(program, data, me)
    is_audit = kind == "audit" or kind is None and world.are_histories(world.lines_of(data))
    found = (world.of_histories if is_audit else world.of_script)(program, data)
    return list((of_histories if is_audit else of_script)(found, data)), status_of(found)


def main():
    words = options()
    files = bank.Files(words.files)
    kind = words.kind or ("site" if bank.word_of(words.files[0]) == "site" else None)
    lines, status = explained(bank.program(words.program), files.data, kind, words.me)
    for line in "\n".join(lines).split("\n"):
        print(files.named(line))
    return status


if __name__ == "__main__":
    bank.stops_in_words("explain", main)
