#!/usr/bin/env python3
"""Uses the playground in a browser as a person does, and compares what it shows with the program's own answers.

usage: browse.py [--few] [--only CHECK] [--firefox | --remote URL] [--shots FOLDER] PROGRAM

Every worked row by the form, by chips, drags and keys; then undo, time, puzzles, audits, crashes, closings, touch,
names for screen readers, a thousand accounts, sixteen sites, a phone's width, and a page that no server brought.
--few leaves the rows out but for three, --only all but one check. --shots keeps pictures of the page. --remote drives
the Firefox behind a WebDriver's URL.

It wants chromium with chromedriver (or, with --firefox, firefox with geckodriver) and Python's selenium. If one of them
isn't there it says so and ends in status 77: nothing was tried then.
"""
from __future__ import annotations

import argparse
import json
import os
import sys
import tempfile
import threading
from typing import Any, Callable

sys.dont_write_bytecode = True
import child  # noqa: F401  (which finds the tools of examples/)
import answers
import bank
import from_rows
import play
import world
from browser import PROBLEMS, ActionChains, Handler, Json, Keys, Page, WebDriverException, browser, same

TWO = {"accounts": [["ann", 0]], "sites": 2, "version": 1}
LONGEST = 3000  # bytes of a row that is worked through


class Browse:
    """The checks, each over the same page."""

    def __init__(self, program: bank.Program, page: Page, shots: str | None) -> None:
        self.program, self.page, self.shots, self.ways = program, page, shots, {}

    def shot(self, name: str) -> None:
        if self.shots:
            self.page.driver.save_screenshot(os.path.join(self.shots, name + ".png"))

    def answers(self, lines: list[str]) -> list[Json]:
        return [json.loads(line) for line in self.program.run("script", "\n".join([*lines, ""]).encode()).replies]

    # ---- worked rows

    def shown(self, name: str, config: Json, lines: list[str], wanted: list[Json]) -> None:
        """The balances at the columns' heads, and what is said to be ready, against the program's answers."""
        done = [line for line, reply in zip(lines, wanted) if reply != {"refused": 23}]
        names, sites = [each for each, _ in config["accounts"]], range(config["sites"])
        asked = [bank.compact({"balance": each, "site": site}) for site in sites for each in names]
        begin = bank.compact(config | {"history": world.LARGEST_HISTORY})
        said = self.answers([begin, *done, *asked])[len(done):]
        found = [balance for site in self.page.balances() for balance in site.values()]
        same(name, "balances", found, [reply["balance"] for reply in said])
        for at, what, is_ready in self.page.js(
                "return [...document.querySelectorAll('.held')].map((each) => "
                "[Number(each.dataset.at), each.dataset.apply, each.classList.contains('ready')])"):
            reply = self.answers([begin, *done, bank.compact({"apply": what, "site": at})])[-1]
            same(name, f"whether {what} is ready at site {at}", is_ready, reply.get("refused") != 15)

    def row(self, name: str, text: str) -> None:
        config, *lines = text.strip("\n").split("\n")
        self.page.open_bank(json.loads(config))
        wanted = self.answers([config, *lines])
        for at, line in enumerate(lines):
            way = self.page.do(json.loads(line))
            self.ways[way] = self.ways.get(way, 0) + 1
            found = self.page.replies()
            same(name, f"reply to {line}", found[at:], wanted[at:at + 1])
            if found[at:] != wanted[at:at + 1]:
                return
            self.shown(f"{name} after {line}", json.loads(config), lines[:at + 1], wanted)
        kept = self.page.ask("return S.commands.map((each) => JSON.parse(each))")
        same(name, "the script", kept, [json.loads(line) for line in lines])
        for _ in range(min(3, len(lines))):
            self.page.one("body").send_keys("u")
            self.page.settle()
        same(name, "after undo", self.page.replies(), wanted[:max(0, len(lines) - 3)])

    def rows(self, is_few: bool) -> int:
        rows = {name: text for name, (text, _) in from_rows.rows().items() if len(text) < LONGEST}
        for name in list(rows)[:3] if is_few else rows:
            self.row(name, rows[name])
        return 3 if is_few else len(rows)

    # ---- the page's own ways

    def boxes(self) -> list[str]:
        """Where the parts of the page are: nothing that is done moves them."""
        return self.page.js("return ['stage','sheet','docks','act','said','tabs','when'].map((id) => { const box = "
                            "document.getElementById(id).getBoundingClientRect(); "
                            "return [id, box.x, box.y, box.width, box.height].join(' '); })")

    def keys(self) -> None:
        """A run with no mouse."""
        page = self.page
        page.open_bank(TWO | {"accounts": [["ann", 500]]})
        before = self.boxes()
        page.press("0", "d", "75", Keys.ENTER)
        page.press("w", "30", Keys.ENTER)
        page.press("1", "n", "n", "y", "y", "b", Keys.ENTER)
        wanted = [{"kind": "deposit", "name": "B0.1"}, {"kind": "withdraw", "name": "R1"}, {"held": "B0.1"},
                  {"held": "R1"}, {"applied": "B0.1"}, {"applied": "R1"}, {"balance": 545}]
        same("keys", "replies", page.replies(), wanted)
        page.press("u", "u")
        same("keys", "after two undos", page.replies(), wanted[:5])
        page.press("U", "U", Keys.HOME)
        same("keys", "at the start", page.ask("return S.current"), 0)
        same("keys", "balances at the start", page.balances(), [{"ann": 500}, {"ann": 500}])
        page.press(*[Keys.ARROW_RIGHT] * 3)
        same("keys", "after three steps", page.ask("return S.current"), 3)
        same("keys", "balances after three steps", page.balances(), [{"ann": 545}, {"ann": 500}])
        page.press("a")
        page.click("#judge")
        same("keys", "audit", page.one("#verdict").text[:9], '{"order":')
        page.press(Keys.ESCAPE)
        same("keys", "where the parts are", self.boxes(), before)

    def pointing(self) -> None:
        """What is said of an operation that is pointed at, and what stays lit."""
        page = self.page
        page.open(bank.read(bank.example("two_cancels_of_one_withdrawal.jsonl")).decode())
        ActionChains(page.driver).move_to_element(page.one(".lab[data-op='B1.1']")).perform()
        said = page.one("#said").text
        for part in ("B1.1 cancel of R1, made by site 1", "After: R1", '"target":"R1"', "applied, as number 3"):
            same("pointing", part, part in said, True)
        lit = page.js("return [...document.querySelectorAll('.lab.past, .lab.hit')].map((each) => each.dataset.op)")
        same("pointing", "lit", sorted(set(lit)), ["B1.1", "R1"])
        same("pointing", "struck out", page.texts(".lab b.gone"), ["R1", "R1"])
        self.shot("pointing")

    def puzzles(self) -> None:
        """Each puzzle, shown by the page itself, ends solved."""
        page = self.page
        stored = json.loads(bank.read(os.path.join(play.PAGE, "puzzles.json")))
        for at, puzzle in enumerate(stored):
            page.click("[data-tab='puzzles']")
            page.press_on(page.one(f"#pane [data-puzzle='{at}']"))
            page.click("#pane [data-do='show']")
            page.ask("stop(); travel(S.world.steps.length)")
            page.settle()
            goals = [text[0] for text in page.texts("#pane li")]
            same(puzzle["title"], "goals", goals, ["☑"] * len(puzzle["goals"]))
            same(puzzle["title"], "its end", len(page.all("#pane .end")), 1)
            self.shot(f"puzzle-{at + 1}")
            if page.ask("return document.getElementById('over').classList.contains('open')"):
                page.click("#close")
        page.press("k")
        page.click("[data-do='next']")
        same("close", "the next bank", page.balances(), [{"ann": 700, "bob": 320}] * 2)

    def crashes(self) -> None:
        """A site that crashed has what it had, and sends again; what comes again is known."""
        page = self.page
        page.open_bank(TWO | {"accounts": [["ann", 100]]})
        for command in ({"deposit": ["ann", 5], "site": 0}, {"deliver": 1, "site": 1}, {"apply": "B0.1", "site": 1}):
            page.do(command)
        same("crash", "on the way before", page.texts("[data-dock='1'] .way"), [])
        page.click("#act [data-site='0']")
        page.click("#crash")
        said = page.one("#said").text
        for part in ("its journal of 1 entries", "It has the balances that it had.", "It sends again: B0.1"):
            same("crash", part, part in said, True)
        same("crash", "on the way after", page.texts("[data-dock='1'] .way"), ["B0.1"])
        page.do({"deliver": 1, "site": 1})
        same("crash", "what comes again", page.replies()[3:], [{"already": "B0.1"}])
        same("crash", "on the way at the end", page.texts("[data-dock='1'] .way"), [])

    def saved(self) -> None:
        """What the three buttons save."""
        page = self.page
        page.js("window.saved = []; URL.createObjectURL = (blob) => { saved.push(blob.text()); return '#'; }; "
                "HTMLAnchorElement.prototype.click = () => {}")
        text = bank.read(bank.example("two_cancels_of_one_withdrawal.jsonl")).decode()
        page.open(text)
        for kind in ("script", "histories", "picture"):
            page.click(f"[data-save='{kind}']")
        script, histories, picture = page.driver.execute_async_script("Promise.all(saved).then(arguments[0])")
        same("saved", "script", [json.loads(it) for it in script.split()], [json.loads(it) for it in text.split()])
        same("saved", "histories", histories.split(), self.program.run("histories", text.encode()).replies)
        same("saved", "picture", picture[:5], "<svg ")
        page.load()

    def refused(self) -> None:
        """What a full inbox refused is still on the way, and comes again with the rest."""
        page = self.page
        page.open_bank(TWO | {"inbox": 1})
        for cents in (1, 2, 3):
            page.do({"deposit": ["ann", cents], "site": 0})
        for n in (2, 3):
            page.do({"deliver": n, "site": 1})
        same("refused", "replies", page.replies()[3:], [{"held": "B0.2"}, {"refused": 16}])
        same("refused", "on the way", page.texts("[data-dock='1'] .way"), ["B0.1", "B0.3"])
        page.ask("S.isAuto = true")
        page.click("#everything")
        page.ask("S.isAuto = false; changed()")
        same("refused", "balances", page.balances(), [{"ann": 6}] * 2)

    def waiting(self) -> None:
        """What a held operation waits for, blue or red, and that the site refuses it until then."""
        page = self.page
        page.open_bank(TWO | {"accounts": [["ann", 100]]})
        for command in ({"withdraw": ["ann", 30], "site": 0}, {"cancel": "R1", "site": 0},
                        {"deposit": ["ann", 5], "site": 0}, {"deliver": 2, "site": 1}, {"deliver": 3, "site": 1}):
            page.do(command)
        same("waiting", "held", page.texts("[data-dock='1'] .held span"), ["waits for R1", "waits for B0.1, R1"])
        page.do({"apply": "B0.1", "site": 1})
        same("waiting", "reply", page.replies()[5:], [{"refused": 15}])
        page.do({"deliver": 1, "site": 1})
        same("waiting", "ready", page.texts("[data-dock='1'] .held.ready b"), ["R1"])
        page.click("[data-ready='1']")
        same("waiting", "balances", page.balances(), [{"ann": 105}] * 2)

    def switch(self) -> None:
        """With the switch on, what comes is applied as soon as it is ready; one undo takes all of it back."""
        page = self.page
        page.open_bank(TWO | {"sites": 3})
        for cents in (5, 7):
            page.do({"deposit": ["ann", cents], "site": 0})
        page.click("#auto")
        page.do({"deliver": 2, "site": 1})
        page.do({"deliver": 1, "site": 1})
        wanted = [{"held": "B0.2"}, {"held": "B0.1"}, {"applied": "B0.1"}, {"applied": "B0.2"}]
        same("switch", "site 1", page.replies()[2:], wanted)
        page.click("#undo")
        same("switch", "after undo", page.replies()[2:], [{"held": "B0.2"}])
        page.click("#everything")
        same("switch", "everywhere", page.balances(), [{"ann": 12}] * 3)
        page.click("#auto")

    def aside(self) -> None:
        """A message that is put aside doesn't come with the rest, until it is taken back."""
        page = self.page
        page.open_bank(TWO)
        page.do({"deposit": ["ann", 5], "site": 0})
        ActionChains(page.driver).context_click(page.one("[data-key='1:1']")).perform()
        page.click("#everything")
        same("aside", "replies", len(page.replies()), 1)
        page.one("[data-key='1:1']").send_keys(Keys.DELETE)
        page.click("#everything")
        same("aside", "taken back", page.replies()[1:], [{"held": "B0.1"}])
        page.do({"deposit": ["ann", 6], "site": 0})
        page.one("[data-key='1:2']").send_keys(Keys.DELETE)
        page.press(Keys.HOME)
        for cents in (7, 8):
            page.do({"deposit": ["ann", cents], "site": 0})
        same("aside", "another message of its number", page.texts("[data-dock='1'] .way"), ["B0.1", "B0.2"])

    # ---- large banks, other forms of input

    def sixty(self) -> None:
        """Five sites and sixty operations: how long a step takes with all of them drawn, in milliseconds."""
        page = self.page
        page.open_bank({"accounts": [["ann", 500], ["bob", 0], ["cy", 7]], "sites": 5, "version": 1})
        page.ask("S.isAuto = true; for (let k = 0; k < 60; k++) { "
                 "act(lineOf('deposit', `[\"${['ann', 'bob', 'cy'][k % 3]}\",${k + 1}]`, k % 5)); "
                 "if (k % 12 === 11) act(() => deliveries()); }")
        page.settle()
        same("sixty", "steps", len(page.replies()), 60 * 9)
        same("sixty", "balances", page.balances(), [{"ann": 1090, "bob": 610, "cy": 637}] * 5)
        spent = page.driver.execute_async_script(
            "const done = arguments[0], from = performance.now(); "
            "window.inside.act(window.inside.lineOf('deposit', '[\"ann\",1]', 0)).then(() => "
            "requestAnimationFrame(() => setTimeout(() => done(performance.now() - from))))")
        page.ask("S.isAuto = false; changed()")
        same("sixty", "a step in less than two seconds", spent < 2000, True)
        print(f"a step after {60 * 9}: {spent:.0f} ms")
        self.shot("sixty")

    def thousand(self) -> None:
        """A thousand accounts: those that something happened to are shown, and those that the filter names."""
        page = self.page
        page.open_bank(TWO | {"accounts": [[f"a{n}", n] for n in range(1000)]})
        page.do({"deposit": ["a777", 1], "site": 0})
        heads = page.texts(".card.mine .sums > *")
        same("thousand", "accounts shown", len(heads), 3 * 40)
        same("thousand", "the first", heads[:3], ["a777", "778", "≠"])
        same("thousand", "not the same", page.texts(".card .sums span:nth-child(3n):not(:empty)"), ["≠", "≠"])
        page.one("#filter").send_keys("99")
        page.settle()
        wanted = [f"a{n}" for n in range(1000) if "99" in str(n)]
        same("thousand", "filtered", page.texts(".card.mine .sums span:nth-child(3n+1)"), wanted)
        page.one("body").click()
        self.shot("thousand")

    def sixteen(self) -> None:
        """A bank of version 2 from the form, with sixteen sites."""
        page = self.page
        page.click("#fresh")
        for field, text in (("k", "16"), ("names", "ann 5"), ("inbox", "7")):
            page.one(f"#{field}").clear()
            page.one(f"#{field}").send_keys(text)
        page.click("#bank [value='yes']")
        wanted = {"accounts": [["ann", 5]], "inbox": 7, "sites": 16, "version": 2}
        same("sixteen", "configuration", page.ask("return S.config"), wanted)
        page.do({"deposit": ["ann", 1], "site": 15})
        page.do({"deliver": 1, "site": 0})
        page.do({"apply": "B15.1", "site": 0})
        same("sixteen", "replies", page.replies()[1:], [{"held": "B15.1"}, {"applied": "B15.1"}])
        same("sixteen", "balances", [site["ann"] for site in page.balances()], [6] + [5] * 14 + [6])
        self.shot("sixteen")

    def files(self) -> None:
        """A migration, journals and a mended file are drawn; examples by their addresses."""
        page = self.page
        page.one("#pick option[value='migrated_history.migration']").click()
        page.settle()
        same("files", "version", page.ask("return S.world.config.version"), 2)
        same("files", "entries of a migration", len(page.replies()), 6)
        page.one("#pick option[value='site_receives.site']").click()
        page.settle()
        taken = page.ask("return S.world.steps.map((step) => step.taken)")
        same("files", "what an audit takes of one journal", taken.count(False) > 0, True)
        paths = [os.path.join(bank.EXAMPLES, "sites", f"site_{it}.site.journal") for it in ("deposit", "receives")]
        page.one("#file").send_keys("\n".join(paths))
        page.settle()
        page.settle()
        same("files", "two journals", page.ask("return S.world.verdict && Object.keys(S.world.verdict)"), ["order"])
        for wanted in ("stale_token", "out_of_order_delivery"):
            page.load(f"#{wanted}")
            page.settle()
            count = len(world.lines_of(bank.read(bank.example(f"{wanted}.jsonl")))) - 1
            same("files", f"by its address, {wanted}", page.ask("return S.commands.length"), count)
        page.do({"deposit": ["ann", 7], "site": 0})
        made = page.ask("return S.commands")
        page.load("#out_of_order_delivery")
        same("files", "the same address again keeps what was made", page.ask("return S.commands"), made)
        said, bad, good = [], '{"deposit":["ann",-1],"site":0}', '{"deposit":["ann",1],"site":0}'
        with tempfile.NamedTemporaryFile("w", suffix=".jsonl") as file:
            for line in (f"{good}\n{bad}", bad, good):
                file.seek(0)
                file.write(json.dumps(TWO) + "\n" + line + "\n")
                file.truncate()
                file.flush()
                page.one("#file").send_keys(file.name)
                page.settle()
                page.settle()
                said.append(page.one("#said").text)
        same("files", "a mended file", page.ask("return S.commands.length"), 1)
        for part in ("line 3: bad line", "column 19: -1 has a sign", "Only the lines before it are read."):
            same("files", f"a bad line after a good one: {part}", part in said[0], True)

    def tries(self) -> None:
        """Each try of the audit changes the histories as they were."""
        page, texts = self.page, []
        page.open(bank.read(bank.example("deposit_reaches_the_other_site.jsonl")).decode())
        page.press("a")
        for kind in ("reply", "amount", "reply"):
            page.click(f"[data-forge='{kind}']")
            texts.append(page.js("return document.getElementById('texts').value"))
        same("tries", "the first and the last are alike", (texts[2] == texts[0], texts[1] == texts[0]), (True, False))
        page.click("#close")

    def touch(self) -> None:
        """A finger drags a message, and lights an operation."""
        from selenium.webdriver.common.actions.action_builder import ActionBuilder
        from selenium.webdriver.common.actions.interaction import POINTER_TOUCH
        from selenium.webdriver.common.actions.pointer_input import PointerInput
        page = self.page
        page.open_bank(TWO)
        page.do({"deposit": ["ann", 5], "site": 0})

        def finger(*steps: Callable[[Any], Any]) -> None:
            actions = ActionBuilder(page.driver, mouse=PointerInput(POINTER_TOUCH, "finger"))
            for step in steps:
                step(actions.pointer_action)
            actions.perform()
            page.settle()
        chip, there = page.one("[data-key='1:1']"), page.one("[data-dock='1'] .held, [data-dock='1'] .halves")
        finger(lambda it: it.move_to(chip), lambda it: it.pointer_down(), lambda it: it.move_to(there, 0, -60),
               lambda it: it.pointer_up())
        same("touch", "a message that is dragged", page.replies()[1:], [{"held": "B0.1"}])
        label = page.one(".lab[data-op='B0.1']")
        finger(lambda it: it.move_to(label), lambda it: it.pointer_down())
        same("touch", "what is said", "B0.1 deposit ann 5, made by site 0" in page.one("#said").text, True)

    def names(self) -> None:
        """Whatever takes the focus has a name for screen readers; the focus goes through the page's parts in order."""
        page = self.page
        page.open(bank.read(bank.example("out_of_order_delivery.jsonl")).decode())
        nameless = [it.get_attribute("outerHTML")[:80] for it in page.all("button, input, select, textarea, [tabindex]")
                    if it.is_displayed() and not it.accessible_name]
        same("names", "without a name", nameless, [])
        roles = [page.one(each).aria_role for each in ("main", "aside", "#sheet", "footer", "[data-tab]", "#pane")]
        same("names", "parts", roles, ["main", "complementary", "list", "toolbar", "tab", "tabpanel"])
        page.one("#fresh").send_keys(Keys.NULL)
        page.js("document.getElementById('fresh').focus()")
        parts = []
        for _ in range(60):
            page.press(Keys.TAB)
            part = page.js("return document.activeElement.closest('header,main,aside,footer')?.localName")
            if part and part not in parts:
                parts.append(part)
        same("names", "the focus goes through", parts, ["header", "main", "aside", "footer"])

    def phone(self) -> None:
        """On a phone's width nothing is wider than the page, and a deposit can be made."""
        page = self.page
        page.resize(500, 850)
        page.open_bank(TWO)
        page.do({"deposit": ["ann", 5], "site": 0})
        same("phone", "replies", page.replies(), [{"kind": "deposit", "name": "B0.1"}])
        same("phone", "wider than the page", page.js("return document.documentElement.scrollWidth > innerWidth"), False)
        self.shot("phone")
        page.resize(1280, 800)

    def alone(self) -> None:
        """A page that no server brought says how to start it."""
        page = self.page
        page.driver.get("file://" + os.path.join(play.PAGE, "page.html"))
        said = page.js("return getComputedStyle(document.getElementById('start')).display")
        same("alone", "is shown", said, "block")
        same("alone", "what it says", "make play" in page.texts("#start")[0], True)
        page.load()
        said = page.js("return getComputedStyle(document.getElementById('start')).display")
        same("alone", "is not shown by the server's", said, "none")

    def all(self, is_few: bool, only: str | None) -> int:
        count = self.rows(is_few) if only in (None, "rows") else 0
        for check in (self.keys, self.pointing, self.waiting, self.switch, self.aside, self.puzzles, self.crashes,
                      self.saved, self.refused, self.sixty, self.thousand, self.sixteen, self.files, self.tries,
                      self.touch, self.names, self.phone, self.alone):
            if only not in (None, check.__name__):
                continue
            try:
                check()
            except WebDriverException as why:
                same(check.__name__, "in the browser", str(why).split("\n")[0], "")
                self.page.load()
        return count


def options() -> argparse.Namespace:
    reader = argparse.ArgumentParser(description=__doc__, formatter_class=argparse.RawDescriptionHelpFormatter)
    reader.add_argument("program", metavar="PROGRAM")
    reader.add_argument("--few", action="store_true")
    reader.add_argument("--only", metavar="CHECK")
    reader.add_argument("--firefox", action="store_true")
    reader.add_argument("--remote", metavar="URL")
    reader.add_argument("--shots", metavar="FOLDER")
    return reader.parse_args()


def main() -> int:
    asked = options()
    program, driver = bank.program(asked.program), browser(asked.firefox, asked.remote)
    with play.Server(answers.Answers(program), 0, Handler) as serving:
        threading.Thread(target=serving.serve_forever, daemon=True).start()
        try:
            browse = Browse(program, Page(driver, serving.address), asked.shots)
            count = browse.all(asked.few, asked.only)
            if not asked.firefox and not asked.remote:
                wrong = [entry["message"] for entry in driver.get_log("browser") if entry["level"] == "SEVERE"]
                same("page", "errors in the browser", [it for it in wrong if "file:///" not in it], [])
        finally:
            driver.quit()
            serving.shutdown()
    print("\n".join(PROBLEMS), end="\n" if PROBLEMS else "")
    by = ", ".join(f"{n} by {way}" for way, n in sorted(browse.ways.items()))
    print(f"{count} rows, {sum(browse.ways.values())} commands ({by}), {len(PROBLEMS)} problems")
    return 1 if PROBLEMS else 0


if __name__ == "__main__":
    bank.stops_in_words("browse", main)
