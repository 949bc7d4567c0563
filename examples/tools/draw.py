#!/usr/bin/env python3
"""Draws a script, or the sites' histories, as a space-time diagram.

In the terminal time goes downwards and each site that takes part has a column. At the left is the line of the file.
With --svg time goes to the right, in as many rows as it wants; messages are slanted arrows in the operation's colour,
dashed where repeated or refused, a yellow band shows where the token is, and a fault of an audit is ringed in red with
its reason.

  ● made   ○ held   ◉ applied   ✕ refused   ◆ token   ? asked   = came again   ║ has the token   [..] balance after it

The replies and balances are the program's. Histories are drawn in the order in which an audit takes them; what it
can't take comes last. The journals of sites are such histories: several files are one, all but the first without its
first line, and lines are counted on.
"""
import argparse
import copy
import shutil
import sys

import bank
import picture
import saying
import world

CODES = {"red": "31", "blue": "34", "token": "33", "refused": "35", "asked": "36", "again": "90", "wrong": "41;97"}
LEGEND = {"●": "made", "○": "held", "◉": "applied", "✕": "refused", "◆": "token", "?": "asked", "=": "came again"}
NARROWEST = 22  # a column of a site, in characters


def options():
    reader = argparse.ArgumentParser(description=__doc__, formatter_class=argparse.RawDescriptionHelpFormatter)
    reader.add_argument("files", metavar="FILE", nargs="+", help="a script, histories or journals; - is standard input")
    reader.add_argument("--svg", metavar="FILE", help="write a picture to this file, and draw nothing in the terminal")
    reader.add_argument("--from", dest="first", metavar="LINE", type=int, help="begin at what this line says")
    reader.add_argument("--to", dest="last", metavar="LINE", type=int, help="end with what this line says")
    reader.add_argument("--site", metavar="SITES", action="append", default=[], help="only these sites, as 0 or 0,2")
    reader.add_argument("--columns", metavar="N", type=int, help="how wide it may be; else as the terminal, or 80")
    reader.add_argument("--color", choices=["auto", "always", "never"], default="auto", help="colours in the terminal")
    reader.add_argument("--program", metavar="PATH", help=bank.WHICH)
    return reader.parse_args()


class Drawing:
    """What of a world is drawn: its steps in order, the sites that take part, and who has the token before each."""

    def __init__(self, found, first=None, last=None, sites=None):
        self.world, self.config, self.fault = found, found.config, []
        places = {step.line: at for at, step in enumerate(found.steps)}
        if first is not None and first > max(places, default=0):
            raise bank.Stop(f"--from {first}: " + (f"the last line that did something is {max(places)}" if places else
                                                   "no line did anything"))
        begin = place_of(places, first, 0)
        end = place_of(places, last, len(found.steps) - 1)
        begin, end = min(begin, end), max(begin, end)
        self.steps = [step for step in found.steps[begin:end + 1] if sites is None or step.site in sites]
        part = {step.site for step in self.steps} | {site for step in self.steps for site in [self.sender(step)]}
        self.sites = sorted(site for site in part if site is not None and (sites is None or site in sites))
        self.holder = holder_after(found.steps[:begin])

    def origin(self, step):
        """The step that sent what came."""
        return self.world.steps[self.world.senders[step.came - 1][0]] if step.came else None

    def sender(self, step):
        """The site that sent what came."""
        return self.origin(step).site if step.came else None

    def part(self, begin, end):
        """Some of its steps, at the same sites."""
        part = copy.copy(self)
        part.steps, part.holder = self.steps[begin:end], holder_after(self.steps[:begin], self.holder)
        return part


def place_of(places, line, otherwise):
    """Where the step of a line is, or of the next line that has one."""
    if line is None:
        return otherwise
    return places.get(line, next((places[each] for each in sorted(places) if each >= line), otherwise))


def holder_after(steps, holder=0):
    """The site that has the token after these steps, or none while it is on its way."""
    for step in steps:
        if step.taken and "passed" in step.reply:
            holder = None
        elif step.taken and "taken" in step.reply:
            holder = step.site
    return holder


class Terminal:
    """Draws downwards, in columns of one width."""

    def __init__(self, drawing, columns, colours):
        self.drawing, self.colours = drawing, colours
        self.gutter = len(str(max([step.line for step in drawing.steps] + [drawing.world.bad_line or 1])))
        self.width = max(NARROWEST, (columns - self.gutter - 2) // max(1, len(drawing.sites)))
        self.columns = max(columns, 40)

    def paint(self, text, colour):
        return f"\x1b[{CODES[colour]}m{text}\x1b[0m" if self.colours and colour in CODES else text

    def header(self):
        drawing = self.drawing
        accounts = ", ".join(f"{name} {cents}" for name, cents in drawing.config["accounts"][:6])
        more = ", .." if len(drawing.config["accounts"]) > 6 else ""
        count = drawing.config["sites"]
        part = f", of which {len(drawing.sites)} drawn" if len(drawing.sites) < count else ""
        yield f"{'':{self.gutter}}  {accounts}{more}; {count} sites{part}"
        names = ((f"site {site}" if site < count else f"no site {site}") + (" ◆" if site == drawing.holder else "")
                 for site in drawing.sites)
        yield f"{'':{self.gutter}}  {''.join(name.ljust(self.width) for name in names)}".rstrip()

    def lines(self, holder):
        """The lines of all sites' columns, doubled where the token is."""
        return ["║" if site == holder else "│" for site in self.drawing.sites]

    def arrow(self, step, columns, me, you, text):
        """The first row of a step whose message came from another column: the arrow, and the text."""
        said = saying.said(step)
        dash = "╌" if said.is_late else "─"
        to_right = you < me
        columns = [column.ljust(self.width) for column in columns]
        for at in range(min(me, you), max(me, you) + 1):
            mark = columns[at][0]
            if at == me:
                tail = "" if to_right else " ◀" + dash * (self.width - len(text) - 2)
                tail = tail.ljust(self.width - len(text))
                columns[at] = self.paint(text, self.colour(step)) + self.paint(tail, said.colour)
                continue
            joint = {"│": "├┤┼", "║": "╟╢╫"}[mark][0 if at == you and to_right else 1 if at == you else 2]
            rest = f"{dash} {step.came} " if at == you and to_right else "" if to_right or at != you else None
            body = " " * (self.width - 1) if rest is None else rest.ljust(self.width - 1, dash)
            if to_right and at == me - 1:
                body = body[:-1] + "▶"
            columns[at] = self.paint(joint + body, said.colour)
        return "".join(columns)

    def colour(self, step):
        return "wrong" if step.fault else saying.said(step).colour

    def text_of(self, step):
        """What a step's cell has, before it is wrapped."""
        said, drawing = saying.said(step), self.drawing
        text = f"{said.mark} {said.line}"
        sender = drawing.sender(step)
        if sender is not None and sender not in drawing.sites:
            text += f" (message {step.came} from site {sender})"
        balances = saying.balances(step, drawing.config)
        return text + (f" [{balances}]" if balances else "") + (f" ◀ {step.fault}" if step.fault else "")

    def step(self, step, holder):
        """The rows of a step."""
        sites, sender = self.drawing.sites, self.drawing.sender(step)
        me, you = sites.index(step.site), sites.index(sender) if sender in sites else None
        room = self.width - (5 if you is not None and you > me else 2)
        parts = saying.wrapped(self.text_of(step), room, indent="  ")
        for row, part in enumerate(parts):
            columns = self.lines(holder)
            number = step.line if row == 0 else ""
            if row == 0 and you is not None and you != me and self.is_before(step):
                yield f"{number:>{self.gutter}}  " + self.arrow(step, columns, me, you, part)
                continue
            if row:
                part = columns[me] + part[1:]
            columns = [column + " " * (self.width - 1) for column in columns]
            columns[me] = self.paint(part, self.colour(step)) + " " * (self.width - len(part))
            yield f"{number:>{self.gutter}}  " + "".join(columns)

    def is_before(self, step):
        """Whether what came was sent above. Only what an audit can't take may come before."""
        return step.taken or self.drawing.world.steps[self.drawing.world.senders[step.came - 1][0]].taken

    def rows(self):
        yield from self.header()
        holder, was_taken = self.drawing.holder, True
        for step in self.drawing.steps:
            if was_taken and not step.taken:
                rule = "what the audit cannot take: ".ljust(self.columns - self.gutter - 2, "-")
                yield f"{'':{self.gutter}}  {rule}"
            was_taken = step.taken
            holder = holder_after([step], holder)
            yield from self.step(step, holder)
        yield from self.end()

    def end(self):
        for at, line in enumerate(self.drawing.fault):
            yield f"{self.drawing.world.bad_line if at == 0 else '':>{self.gutter}}  {'✕ ' if at == 0 else '  '}{line}"
        marks = {saying.said(step).mark for step in self.drawing.steps}
        used = [f"{mark} {what}" for mark, what in LEGEND.items() if mark in marks]
        shown = any(step.has for step in self.drawing.steps)
        legend = "   ".join([*used, "║ has the token", *(["[..] balance"] if shown else [])])
        for line in saying.wrapped(legend, self.columns - self.gutter - 2):
            yield f"{'':{self.gutter}}  {line}"


def sites_of(words, count):
    """The sites that --site names."""
    if not words:
        return None
    try:
        sites = {int(word) for each in words for word in each.split(",")}
    except ValueError:
        raise bank.Stop(f"--site wants numbers, as 0 or 0,2, and not {','.join(words)}") from None
    if not all(0 <= site < count for site in sites):
        raise bank.Stop(f"--site wants sites 0 to {count - 1}")
    return sites


def drawing_of(program, data, first=None, last=None, sites=()):
    """The drawing of a file's bytes."""
    found = world.world_of(program, data)
    if found.config is None or not found.steps and found.error:
        raise bank.Stop(found.error)
    drawing = Drawing(found, first, last, sites_of(list(sites), found.config["sites"]))
    if found.error and last is None:
        drawing.fault = found.error.removeprefix(f"line {found.bad_line}: ").split("\n")
    return drawing


def main():
    asked = options()
    data = bank.Files(asked.files).data
    drawing = drawing_of(bank.program(asked.program), data, asked.first, asked.last, asked.site)
    if asked.svg:
        bank.write(asked.svg, picture.svg(drawing))
        return 0
    columns = asked.columns or shutil.get_terminal_size((80, 24)).columns
    colours = asked.color == "always" or asked.color == "auto" and sys.stdout.isatty()
    for row in Terminal(drawing, columns, colours).rows():
        sys.stdout.write(row.rstrip() + "\n")
    return 0


if __name__ == "__main__":
    bank.stops_in_words("draw", main)
