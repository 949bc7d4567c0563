"""Draws as SVG: time goes to the right, and each site has a line."""
import math
import re
from html import escape

import saying

COLOURS = {"red": "#c62828", "blue": "#1565c0", "token": "#8d6e00", "refused": "#7b1fa2", "asked": "#00796b",
           "again": "#707070", "wrong": "#d50000", "plain": "#333333"}
STYLE = (
    "text{font:10px Helvetica,Arial,sans-serif;text-anchor:middle;paint-order:stroke;stroke:#fff;stroke-width:3px}"
    ".h{font-weight:bold;font-size:11px}.l{text-anchor:start}.f{stroke:#fdecea}"
)
LEFT = 64       # where the sites' lines begin
LINE = 12       # from one line of a label to the next
APART = 56      # between two sites' labels, for the arrows
WIDEST = 26     # a line of a label, in characters
ROW = 1400      # how wide a row may be; what comes then is in a row below
DESCRIBED = 60  # the most steps that a picture's description has
MARKS = {"●": "made", "○": "held", "◉": "applied", "✕": "refused", "◆": "token"}


class Label:
    """What a step's mark is labelled with: lines, each with its class and colour; and how far they reach each way."""

    def __init__(self, step, drawing):
        said = saying.said(step)
        colour = "wrong" if step.fault else said.colour
        self.lines = [(said.head, "h", colour)]
        rest, origin = said.rest, drawing.origin(step)
        if origin is not None and all(origin is not each for each in drawing.steps):
            rest += f" (message {step.came} from site {origin.site})"
        self.lines += [(line, "", colour) for line in saying.wrapped(rest, WIDEST)]
        balances = saying.balances(step, drawing.config)
        self.lines += [(line, "", "plain") for line in saying.wrapped(f"[{balances}]" if balances else "", WIDEST)]
        self.lines += [(line, "", "wrong") for line in saying.wrapped(without_lines(step.fault), WIDEST)]
        self.half = max(16, *(len(text) * (3.9 if kind else 3.1) for text, kind, _ in self.lines))


def without_lines(fault):
    """Why an audit doesn't take an entry, without the numbers of lines, which a picture doesn't have."""
    return re.sub(r" at line \d+, behind", " behind", re.sub(r" \(line \d+\)", "", fault))


class Picture:
    """Where everything of a row goes."""

    def __init__(self, drawing):
        self.drawing = drawing
        self.labels = [Label(step, drawing) for step in drawing.steps]
        beside = self.beside()
        self.above = [self.is_above(step, beside[id(step)]) for step in drawing.steps]
        self.x = self.across()
        self.width = max([round(x + label.half + 30) for x, label in zip(self.x, self.labels)], default=0)
        self.y = self.down()
        self.place = {id(step): (x, self.y[step.site]) for step, x in zip(drawing.steps, self.x)}

    def beside(self):
        """The sites that each step has a message from or to."""
        found, origin = {id(step): [] for step in self.drawing.steps}, self.drawing.world
        for step in self.drawing.steps:
            if step.came:
                sender = origin.steps[origin.senders[step.came - 1][0]]
                found[id(step)].append(sender.site)
                found.get(id(sender), []).append(step.site)
        return found

    def is_above(self, step, beside):
        """Whether the label is above the mark: the side with fewer arrows."""
        sites = self.drawing.sites
        if step.site in (sites[0], sites[-1]):
            return step.site == sites[0]
        return sum(site < step.site for site in beside) <= sum(site > step.site for site in beside)

    def across(self):
        """Each mark further right than the last, and no label over another of its site and side. What an audit can't
        take begins behind all labels."""
        found, right, x, was_taken = [], {}, LEFT - 4, True
        for step, label, above in zip(self.drawing.steps, self.labels, self.above):
            if was_taken and not step.taken:
                x = max([LEFT, *right.values()]) + label.half
            was_taken = step.taken
            x = max(x + 24, LEFT + label.half, right.get((step.site, above), 0) + label.half + 8)
            right[step.site, above] = x + label.half
            found.append(round(x))
        return found

    def down(self):
        """How far down each site's line is."""
        tall = {}
        for step, label, above in zip(self.drawing.steps, self.labels, self.above):
            tall[step.site, above] = max(tall.get((step.site, above), 0), len(label.lines))
        y, found = 22, {}
        for site in self.drawing.sites:
            y += tall.get((site, True), 0) * LINE + 18
            found[site] = y
            y += tall.get((site, False), 0) * LINE + APART
        self.height = max(y - APART + 36, 40)
        return found

    def bands(self):
        """A yellow band where the token is."""
        drawing, since = self.drawing, LEFT - 8
        spans, holder = [], drawing.holder
        for step, x in zip(drawing.steps, self.x):
            if step.taken and "passed" in step.reply:
                spans.append((holder, since, x))
                holder = None
            elif step.taken and "taken" in step.reply:
                holder, since = step.site, x
        for site, begin, end in [*spans, (holder, since, self.width - 14)]:
            if site in self.y:
                yield f'<path d="M{begin},{self.y[site]}H{end}" stroke="#ffd54f" stroke-width="9"/>'

    def arrow(self, step):
        """The message that came: a slanted arrow, or an arc where it came back to its own site."""
        origin = self.drawing.origin(step)
        if id(origin) not in self.place:
            return
        (x1, y1), (x2, y2) = self.place[id(origin)], self.place[id(step)]
        said, waits = saying.said(step), is_waited_for(self.drawing, step)
        colour = "wrong" if waits else said.colour
        dashed = ' stroke-dasharray="4 3"' if said.is_late or waits else ""
        style = f'fill="none" stroke="{COLOURS[colour]}" stroke-width="1.3" marker-end="url(#{colour})"{dashed}'
        if y1 == y2:
            side = 1 if step.site != self.drawing.sites[-1] else -1
            yield f'<path d="M{x1},{y1}Q{(x1 + x2) // 2},{y1 + 34 * side} {x2 - 5},{y2 + 6 * side}" {style}/>'
            return
        far = math.hypot(x2 - x1, y2 - y1)
        dx, dy = 9 * (x2 - x1) / far, 9 * (y2 - y1) / far
        yield f'<path d="M{x1 + dx:.0f},{y1 + dy:.0f}L{x2 - dx:.0f},{y2 - dy:.0f}" {style}/>'

    def mark(self, step):
        """The mark of what a step did."""
        x, y = self.place[id(step)]
        said = saying.said(step)
        fill = f'fill="{COLOURS["wrong" if step.fault else said.colour]}"'
        line = fill.replace("fill", "stroke") + ' fill="#fff" stroke-width="2"'
        yield {
            "●": f'<circle cx="{x}" cy="{y}" r="6.5" {fill}/>',
            "○": f'<circle cx="{x}" cy="{y}" r="5.5" {line}/>',
            "◉": f'<circle cx="{x}" cy="{y}" r="5.5" {line}/><circle cx="{x}" cy="{y}" r="2.5" {fill}/>',
            "◆": f'<path d="M{x},{y - 8}l8,8l-8,8l-8,-8z" {fill}/>',
            "✕": f'<path d="M{x - 5},{y - 5}l10,10m0,-10l-10,10" {line}/>',
        }.get(said.mark, f'<circle cx="{x}" cy="{y}" r="3" {fill}/>')
        if step.fault:
            yield f'<circle cx="{x}" cy="{y}" r="12" fill="none" stroke="{COLOURS["wrong"]}" stroke-width="2"/>'

    def label(self, step, label, above):
        x, y = self.place[id(step)]
        away = 6 if step.fault else 0
        top = y - 14 - away - LINE * (len(label.lines) - 1) if above else y + 22 + away
        for at, (text, kind, colour) in enumerate(label.lines):
            kind = " ".join(each for each in (kind, "" if step.taken else "f") if each)
            kind = f' class="{kind}"' if kind else ""
            yield f'<text x="{x}" y="{top + LINE * at}"{kind} fill="{COLOURS[colour]}">{escape(text)}</text>'

    def ground(self):
        """What is behind the marks: what an audit can't take, the token's bands, and the sites' lines."""
        drawing = self.drawing
        first = next((x for step, x in zip(drawing.steps, self.x) if not step.taken), None)
        if first is not None:
            first -= round(max(18, self.labels[self.x.index(first)].half)) + 8
            yield f'<rect x="{first}" y="0" width="{self.width - first}" height="{self.height - 18}" fill="#fdecea"/>'
            colour = f'fill="{COLOURS["wrong"]}"'
            yield f'<text x="{first + 4}" y="11" class="l f" {colour}>what the audit can\'t take</text>'
        yield from self.bands()
        for site in drawing.sites:
            name = f"site {site}" if site < drawing.config["sites"] else f"no site {site}"
            line = 'stroke="#9e9e9e" stroke-width="1.5" marker-end="url(#plain)"'
            yield f'<path d="M{LEFT - 8},{self.y[site]}H{self.width - 10}" {line}/>'
            yield f'<text x="6" y="{self.y[site] + 4}" class="h l">{name}</text>'

    def body(self):
        drawing = self.drawing
        yield from self.ground()
        for step in drawing.steps:
            if step.came:
                yield from self.arrow(step)
        for step, label, above in zip(drawing.steps, self.labels, self.above):
            yield from self.mark(step)
            yield from self.label(step, label, above)


def is_waited_for(drawing, step):
    """Whether what came is at fault, since an audit can't take the entry that sent it either."""
    return bool(step.fault) and not drawing.origin(step).taken


def legend_of(drawing):
    """What the marks and colours that are used mean."""
    said = [saying.said(step) for step in drawing.steps]
    marks = ", ".join(f"{mark} {what}" for mark, what in MARKS.items() if any(each.mark == mark for each in said))
    came = [step for step in drawing.steps if step.came]
    late = any(saying.said(step).is_late for step in came)
    waits = any(is_waited_for(drawing, step) for step in came)
    return "; ".join([marks, "yellow: has the token", *(["dashed: repeated or refused"] if late else []),
                      *(["ringed: at fault"] if any(step.fault for step in drawing.steps) else []),
                      *(["red and dashed: waited for"] if waits else [])])


def accounts_of(drawing):
    accounts = ", ".join(f"{name} {cents}" for name, cents in drawing.config["accounts"][:6])
    return accounts + (", .." if len(drawing.config["accounts"]) > 6 else "")


def rows_of(drawing):
    """The drawing in rows, none wider than a row may be unless it has one step."""
    rows, begin, count = [], 0, len(drawing.steps)
    while begin < count or not rows:
        end = count
        row = Picture(drawing.part(begin, end))
        while row.width > ROW and end > begin + 1:
            end = begin + max(1, 9 * (end - begin) // 10)
            row = Picture(drawing.part(begin, end))
        rows.append(row)
        begin = end
    return rows


def described(drawing):
    """The picture in words, for whoever doesn't see it."""
    more = len(drawing.steps) - DESCRIBED
    steps = [f"site {step.site}: {saying.said(step).line}" + (f" ({without_lines(step.fault)})" if step.fault else "")
             for step in drawing.steps[:DESCRIBED]] + ([f"and {more} more"] if more > 0 else [])
    title = f"A run of a bank at {drawing.config['sites']} sites, as a space-time diagram"
    return f"<title>{title}</title>\n<desc>{escape('; '.join(steps))}</desc>\n"


def head(colour):
    """An arrow's head."""
    size = 'viewBox="0 0 8 8" refX="7" refY="4" markerWidth="6" markerHeight="6" orient="auto"'
    return f'<marker id="{colour}" {size}><path d="M0,0L8,4L0,8z" fill="{COLOURS[colour]}"/></marker>'


def svg(drawing):
    """The picture's text."""
    rows, legend, height, parts = rows_of(drawing), legend_of(drawing), 0, []
    width = max([round(12 + 5.6 * len(legend)), *(row.width for row in rows)])
    for row in rows:
        row.width = width
        parts += [f'<g transform="translate(0,{height})">', *row.body(), "</g>"] if len(rows) > 1 else row.body()
        height += row.height
    grey = 'class="l" fill="#707070"'
    parts += [f'<text x="6" y="11" {grey}>{escape(accounts_of(drawing))}</text>',
              f'<text x="6" y="{height - 5}" {grey}>{legend}</text>']
    body = "\n".join(parts)
    heads = "".join(head(colour) for colour in COLOURS if f"url(#{colour})" in body)
    return (f'<svg xmlns="http://www.w3.org/2000/svg" role="img" width="{width}" height="{height}" '
            f'viewBox="0 0 {width} {height}">\n{described(drawing)}<style>{STYLE}</style><defs>{heads}</defs>\n'
            f'<rect width="100%" height="100%" fill="#fff"/>\n{body}\n</svg>\n')
