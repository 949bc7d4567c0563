"""What happened, step by step, in a script's run or in the sites' histories: for draw.py and explain.py.

A script's steps are its commands. Those of histories are their entries, in the order in which an audit takes them: in
rounds, from site 0 on, from each site as many as can be taken. What it can't take comes last, as the file has it.
The balances are the program's: the script, or the same world as a script, is run with a statement of each account at
its end.
"""
import json
from collections import Counter
from dataclasses import dataclass, field

from bank import TAKES, compact, fields

VERBS = (*TAKES, "shadow", "token")
LARGEST_HISTORY = 100_000_000
WRONG_REPLY = "another reply than this site gives"   # of an entry whose right reply can't be asked


@dataclass
class Step:
    """What one site did: its line in the file, its site, what it was asked, and what it answered."""

    line: int
    site: int
    event: dict
    reply: dict
    came: int = 0                               # the number of the message that came, from 1
    sent: list = field(default_factory=list)    # the numbers of those that it sent
    rows: dict = field(default_factory=dict)    # by an operation: each account, the balance then, and what it moved
    position: int = 0                           # in its site's history, from 1
    beside: dict = field(default_factory=dict)  # the further keys of its entry, as a request's id
    fault: str = ""                             # why an audit doesn't take it
    taken: bool = True
    said: tuple = None                          # what saying.said found

    @property
    def verb(self):
        return next((verb for verb in VERBS if verb in self.event), "")

    @property
    def has(self):
        """Each account that it is on, the balance then, and what it moved, in the order of its operations."""
        return [row for rows in self.rows.values() for row in rows]

    @property
    def changed(self):
        """The names of the operations that the site's list has more by this step."""
        if "kind" in self.reply:
            return [self.reply["name"]]
        if "applied" in self.reply:
            return [self.reply["applied"]]
        return self.reply.get("names", [])

    @property
    def made(self):
        """What it sends: names of operations, or the token's epoch."""
        if "passed" in self.reply:
            return [f"token {self.reply['passed']}"]
        return [] if "applied" in self.reply else self.changed


@dataclass
class World:
    """The steps, which step sent each message, and how the run ended."""

    config: dict
    steps: list
    senders: list = field(default_factory=list)     # of message n, at n - 1: the step, and what was sent
    error: str = ""                                 # what the program says of a line that it doesn't take
    bad_line: int = None
    verdict: dict = None                            # of histories: the audit's answer
    answer: dict = None                             # of a wrong reply: what the site would have answered
    is_histories: bool = False


def lines_of(data):
    """The lines that aren't skipped, each with its number."""
    found = enumerate(data.split(b"\n"), 1)
    return [(number, line) for number, line in found if line.strip(b" \t\r")]


def parsed(line):
    """The object that a line is, or nothing."""
    try:
        value = json.loads(line)
    except (ValueError, RecursionError):
        return None
    return value if isinstance(value, dict) else None


def are_histories(lines):
    """Whether the first line after the configuration is an entry of a history."""
    return len(lines) > 1 and "event" in (parsed(lines[1][1]) or {})


def named_in(event):
    """The accounts that an event names."""
    found = fields(event) | event.get("shadow", {})
    yield from (found[key] for key in ("account", "to") if key in found)
    for request in found.get("requests", []):
        yield from named_in(request)


def questions(config, asked):
    """A statement of each account that is named, at each site that does something. Lines of odd forms ask nothing."""
    names, sites = set(), set()
    try:
        known = {name for name, _ in config["accounts"]}
        for site, event in asked:
            sites.add(site)
            names.update(named_in(event))
        return [compact({"site": site, "statement": name})
                for site in sorted(sites) if site < config["sites"] for name in sorted(names & known)]
    except (AttributeError, IndexError, KeyError, TypeError, ValueError):
        return []


def balances(asked, replies):
    """By the site and an operation's name: each account that it is on, with the balance then and what it moved."""
    found = {}
    for line, reply in zip(asked, replies):
        question = json.loads(line)
        for row in json.loads(reply).get("rows", []):
            found.setdefault((question["site"], row[1]), []).append((question["statement"], row[5], row[3]))
    return found


def balances_with_room(program, config, lines, replies, asked):
    """The balances, asked of the same run with histories long enough for the questions."""
    config = compact(config | {"history": LARGEST_HISTORY})
    done = [line for line, reply in zip(lines, replies) if reply != '{"refused":23}']
    run = program.run("script", "\n".join([config, *done, *asked, ""]).encode())
    return balances(asked, run.replies[len(done):])


def note_sent(world, at):
    """Notes what a step sent."""
    for what in world.steps[at].made:
        world.senders.append((at, what))
        world.steps[at].sent.append(len(world.senders))


def of_script(program, data):
    """The steps of a script's run, as far as it comes."""
    lines = lines_of(data)
    values = [parsed(line) or {} for _, line in lines]
    config, commands = (values or [{}])[0], values[1:]
    asked = questions(config, [(command.get("site"), command) for command in commands])
    run = program.run("script", data + "".join("\n" + line for line in asked).encode())
    replies = run.replies[:len(commands)]
    world = World(config, [], error=run.said, bad_line=run.bad_line)
    texts = [line.decode("utf-8", "replace") for _, line in lines[1:]]
    has = balances(asked, run.replies[len(replies):])
    if run.fault and replies or any('"refused":23' in reply for reply in run.replies):
        has = balances_with_room(program, config, texts, replies, asked)
    add_steps(world, lines[1:], replies)
    add_balances(world, has)
    return world


def add_steps(world, lines, replies):
    """Adds the commands of a script that were answered."""
    for (number, line), reply in zip(lines, replies):
        event = json.loads(line)
        step = Step(number, event.pop("site"), event, json.loads(reply))
        if "deliver" in event and step.reply.get("refused") not in (19, 20, 23):
            step.came = event["deliver"]
        world.steps.append(step)
        note_sent(world, len(world.steps) - 1)


def add_balances(world, has):
    """Puts the balances beside what changed them."""
    for step in world.steps:
        if step.taken:
            step.rows = {name: has.get((step.site, name), []) for name in step.changed}


def receipt_key(event):
    """What a received message has that no two messages of a world share."""
    if "shadow" in event:
        return event["shadow"]["name"], event["shadow"]["home"]
    return tuple(event["token"][:2]) if "token" in event else None


def sent_keys(step):
    """The same of what a step sent."""
    if "passed" in step.reply:
        return [(step.reply["passed"], step.event["pass"])]
    return [(name, step.site) for name in step.made]


def audited(program, config, queues):
    """The audit of so much of each site's history, as lines."""
    lines = [compact(config)] + [line for queue in queues for line in queue]
    return json.loads(program.run("audit", "\n".join([*lines, ""]).encode()).replies[0])


def in_rounds(queues, ends):
    """The entries up to these ends, in the audit's rounds: from each site in turn, as many as are no receipts of what
    wasn't sent."""
    at, sent, order, took = [0] * len(queues), set(), [], True
    while took:
        took = False
        for site, queue in enumerate(queues):
            while at[site] < ends[site]:
                step = queue[at[site]]
                key = receipt_key(step.event)
                if key is not None and key not in sent:
                    break
                at[site], took = at[site] + 1, True
                sent.update(sent_keys(step))
                order.append(step)
    return order


def entries(config, lines):
    """The entries, and those of each site."""
    queues, steps = [[] for _ in range(config["sites"])], []
    for number, line in lines:
        value = json.loads(line)
        event, reply, site = value.pop("event"), value.pop("reply"), value.pop("site")
        step = Step(number, site, event, reply, position=len(queues[site]) + 1, beside=value)
        queues[step.site].append(step)
        steps.append(step)
    return steps, queues


def as_entry(step):
    return compact({"event": step.event, "reply": step.reply, "site": step.site})


def ends_of(program, config, queues, verdict):
    """How many entries of each site an audit takes. A site's history is cut before a wrong reply."""
    ends = [len(queue) for queue in queues]
    while verdict.get("fault") == "reply":
        ends[verdict["site"]] = verdict["event"] - 1
        verdict = audited(program, config, [map(as_entry, queue[:end]) for queue, end in zip(queues, ends)])
    return [first - 1 for first in verdict["next"]] if "next" in verdict else ends


def of_histories(program, data):
    """The steps of the sites' histories, in the audit's order."""
    lines = lines_of(data)
    run = program.run("audit", data)
    if not run.replies:
        return World(None, [], error=run.said, bad_line=run.bad_line, is_histories=True)
    config, verdict = json.loads(lines[0][1]), json.loads(run.replies[0])
    steps, queues = entries(config, lines[1:])
    order = in_rounds(queues, ends_of(program, config, queues, verdict))
    taken = {step.line for step in order}
    rest = [step for step in steps if step.line not in taken]
    world = World(config, order + rest, verdict=verdict, is_histories=True)
    for step in rest:
        step.taken = False
    first_sent = {}
    for at, step in enumerate(world.steps):
        note_sent(world, at)
        for key, number in zip(sent_keys(step), step.sent):
            first_sent.setdefault(key, number)
    for step in world.steps:
        step.came = first_sent.get(receipt_key(step.event), 0)
    wrong = verdict.get("fault") == "reply" and queues[verdict["site"]][verdict["event"] - 1]
    add_balances(world, replayed(program, world, order, wrong))
    note_faults(world, queues)
    return world


def as_command(step):
    """The command by which a script does what the step did."""
    event = {"deliver": step.came} if receipt_key(step.event) else step.event
    return compact(event | {"site": step.site})


def can_be_asked(world, wrong):
    """Whether a script can come to an entry: all before it at its site were taken, and what it received was sent."""
    if wrong.position > world.config.get("history", LARGEST_HISTORY):
        return False
    if receipt_key(wrong.event) and not (wrong.came and world.steps[world.senders[wrong.came - 1][0]].taken):
        return False
    return all(step.taken for step in world.steps if step.site == wrong.site and step.position < wrong.position)


def replayed(program, world, order, wrong):
    """The balances of the entries that were taken, from a script of them; behind them the answer to the wrong one."""
    config = compact(world.config | {"history": LARGEST_HISTORY})
    asked = questions(world.config, [(step.site, step.event) for step in order])
    script = [config, *map(as_command, order), *asked]
    if wrong and can_be_asked(world, wrong):
        script.append(as_command(wrong))
    run = program.run("script", "\n".join([*script, ""]).encode())
    if len(script) > 1 + len(order) + len(asked):
        world.answer = json.loads(run.replies[-1])
    return balances(asked, run.replies[len(order):len(order) + len(asked)])


def red_before(queue, step):
    """How many red operations a site had applied before an entry."""
    return sum(name[0] == "R" for before in queue[:step.position - 1] for name in before.changed)


def clock_before(world, queue, step, name):
    """What a site had applied before it made this operation, as its version of the lines has it."""
    names = [each for before in queue[:step.position - 1] for each in before.changed]
    names += step.changed[:step.changed.index(name)]
    counts = Counter(int(each[1:].split(".")[0]) for each in names if each[0] == "B")
    red = sum(each[0] == "R" for each in names)
    if world.config["version"] == 1:
        return [[counts[site] for site in range(8)], red]
    return [[[site, counts[site]] for site in sorted(counts)], red]


def made_as(world, queues, at, name):
    """What is known of an operation from the entry that made it, by the keys of a received operation."""
    step = world.steps[at]
    request = step.event["batch"][step.changed.index(name)] if "batch" in step.event else step.event
    verb, found = next(verb for verb in VERBS if verb in request), fields(request)
    known = {"kind": step.reply.get("kind", verb), "deps": clock_before(world, queues[step.site], step, name)}
    if "name" in found:
        target = next((n for n, (_, what) in enumerate(world.senders) if what == found["name"]), None)
        of_target = made_as(world, queues, *world.senders[target]) if target is not None else {}
        money = {key: of_target[key] for key in ("account", "amount") if key in of_target}
        return known | {"target": found["name"]} | money
    if "to" in found and known["kind"] == verb:
        known["to"] = found["to"]
    amounts = [found["cents"]] if "cents" in found else [row[2] for row in step.rows.get(name, [])]
    return known | {"account": found["account"]} | {"amount": amount for amount in amounts}


def difference(world, queues, step):
    """How a received operation differs from the one that was made under its name at its home, or nothing."""
    at, what = world.senders[step.came - 1]
    if "token" in step.event:
        return token_difference(world.steps[at], queues, step)
    made, came = made_as(world, queues, at, what), step.event["shadow"]
    for key in ("kind", "account", "to", "amount", "target", "deps"):
        if key in made and made[key] != came.get(key):
            there = f"site {world.steps[at].site} made {what} with {compact(made[key])} (line {world.steps[at].line})"
            return f"{key} {compact(came.get(key))} came, but {there}"
    return ""


def token_difference(sender, queues, step):
    """How a token that came differs from the one that was passed, or nothing."""
    made, came = red_before(queues[sender.site], sender), step.event["token"][2]
    if made == came:
        return ""
    return f"a token with {came} red operations came, but site {sender.site} passed it with {made} (line {sender.line})"


def why_not_sent(world, queues, step):
    """Why the audit can't take a receipt: nobody sent the message, or not just this one, or only behind what waits."""
    what = f"token {step.event['token'][0]}" if "token" in step.event else step.event["shadow"]["name"]
    if not step.came:
        return f"no entry sent {what}"
    sender = world.steps[world.senders[step.came - 1][0]]
    differs = difference(world, queues, step)
    if differs or sender.taken:
        step.came = 0
        return differs or f"no entry sent just this {what}"
    return f"{what} is sent only at line {sender.line}, behind an entry that waits as well"


def note_faults(world, queues):
    """Says beside each entry at which the audit stops why it does."""
    verdict = world.verdict
    if verdict.get("fault") == "stuck":
        for queue, first in zip(queues, verdict["next"]):
            if first <= len(queue):
                queue[first - 1].fault = why_not_sent(world, queues, queue[first - 1])
    elif verdict.get("fault") == "reply":
        step = queues[verdict["site"]][verdict["event"] - 1]
        step.fault, differs = WRONG_REPLY, step.came and difference(world, queues, step)
        if differs:
            # (what was asked is another message than the one that came)
            step.came, world.answer, step.fault = 0, None, differs
        elif step.position > world.config.get("history", LARGEST_HISTORY):
            step.fault = "the site's history is full before this entry"
        elif world.answer is not None:
            step.fault = f"the site answers {compact(world.answer)} here"


def world_of(program, data):
    """The steps of a file, a script or histories."""
    return (of_histories if are_histories(lines_of(data)) else of_script)(program, data)
