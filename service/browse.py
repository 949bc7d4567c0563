#!/usr/bin/env python3
"""Uses the console in a browser as a person does.

usage: browse.py [--only CHECK] [--shots FOLDER]    over sites of its own that answer from recorded states: no broker
       browse.py --services PROGRAM                 over three nodes of the broker and three services
       browse.py --mutants                          each patch of mutants/, on a copy of the page, has to be caught

It wants chromium with chromedriver, and Python's selenium. If one of them isn't there it says so and ends in status 77:
nothing was tried then.
"""
from __future__ import annotations

import argparse
import glob
import json
import os
import re
import signal
import subprocess
import sys
import tempfile
import time
from typing import Any, Callable

sys.dont_write_bytecode = True
HERE = os.path.dirname(os.path.abspath(__file__))
sys.path.insert(1, os.path.join(os.path.dirname(HERE), "play"))
import browser  # noqa: E402
import stub  # noqa: E402
from browser import PROBLEMS, ActionChains, Json, Keys, same  # noqa: E402

PAGE = os.path.join(HERE, "console.html")
MARKUP = '<img src=x onerror="window.hurt=1">'


def money(cents: int) -> str:
    return f"{cents / 100:,.2f}"


class Page(browser.Page):
    """The console, used as a person does."""

    def load(self, path: str = "") -> None:
        self.driver.get("about:blank")
        self.driver.get(self.address + path)

    def settle(self) -> None:
        """Waits until what is known is drawn."""
        self.driver.execute_async_script("const done = arguments[0]; setTimeout(() => requestAnimationFrame(() => "
                                         "setTimeout(done)), 60)")

    def until(self, wanted: Callable[[], Any], seconds: float = 8) -> Any:
        """The first true value, or the last one once the time is over."""
        end = time.monotonic() + seconds
        while not (found := wanted()) and time.monotonic() < end:
            time.sleep(0.03)
        return found

    def text(self, selector: str) -> str:
        return " ".join(self.texts(selector))

    def says(self, selector: str, words: str, seconds: float = 8) -> bool:
        return self.until(lambda: words in self.text(selector), seconds)

    def column(self, site: int) -> list[str]:
        """What an account has at a site, and all of them."""
        return self.texts(f"#accounts tr > :nth-child({site + 2})")

    def is_wide(self) -> bool:
        return self.js("return document.documentElement.scrollWidth > innerWidth")

    def click(self, selector: str) -> None:
        """Clicks what is there, which may be drawn anew in the meantime."""
        for is_last in (False, False, True):
            try:
                return super().click(selector)
            except browser.WebDriverException:
                if is_last:
                    raise

    def type(self, selector: str, text: str) -> None:
        field = self.one(selector)
        field.clear()
        field.send_keys(text)


class Browse:
    """The checks, each over a bank of its own."""

    def __init__(self, driver: Any, path: str, shots: str | None) -> None:
        self.driver, self.path, self.shots = driver, path, shots
        with open(os.path.join(HERE, "states.json"), encoding="utf-8") as file:
            self.states: list[Json] = json.load(file)
        self.holder = next(site for site, state in enumerate(self.states) if state["token"]["here"])
        self.other = next(site for site in (2, 1) if site != self.holder)  # not the one that has the token, nor site 0

    def shot(self, name: str) -> None:
        if self.shots:
            self.driver.save_screenshot(os.path.join(self.shots, name + ".png"))

    def open(self, states: list[Json] | None = None, secret: str | None = None) -> tuple[stub.Bank, Page]:
        """A bank of these states, and the page that its first site serves."""
        self.bank = stub.Bank(states or self.states, self.path)
        self.bank.secret = secret
        page = Page(self.driver, self.bank.addresses[0] + "/")
        page.js("sessionStorage.clear()")
        if secret is None:
            page.until(lambda: len(page.all("#heads .dot.up")) == len(self.bank.sites))
        return self.bank, page

    # ---- what is shown

    def shows(self) -> None:
        """All that the sites reported."""
        bank, page = self.open()
        for site, state in enumerate(self.states):
            wanted = [money(cents) for cents in [*state["balances"].values(), sum(state["balances"].values())]]
            same("shows", f"balances at site {site}", page.column(site), wanted)
        names = [one["name"] for one in sorted(self.states[0]["operations"], key=lambda one: -one["place"])][:100]
        same("shows", "operations", page.texts("#rows .name"), names)
        entries = [f"{state['entries']:,}" for state in self.states]
        same("shows", "entries", page.texts("#facts tr:first-child td"), entries)
        same("shows", "behind", page.texts("#facts tr:nth-child(2) td"), ["0"] * len(bank.sites))
        same("shows", "the token", [page.text(f"#heads th:nth-child({self.holder + 2}) .badge"),
                                    len(page.all(".badge"))], ["◆ token", 1])
        same("shows", "nothing held", page.text("#waiting"), "Nothing is held anywhere.")
        same("shows", "the foot", page.text("#state"), "All sites have the same balances.")
        undone = [one["target"] for one in self.states[0]["operations"] if one["kind"] == "cancel"]
        same("shows", "struck out", sorted(page.texts("#rows .undone .name")), sorted(undone))
        same("shows", "wider than the page", page.is_wide(), False)
        self.shot("service")

    def lacking(self) -> tuple[list[Json], Json]:
        """The states, but that site 2 hasn't applied the last blue operation; and this one."""
        states = json.loads(json.dumps(self.states))
        last = max((one for one in states[2]["operations"] if one["name"][0] == "B"), key=lambda one: one["place"])
        home = int(last["name"][1:].partition(".")[0])
        states[2]["operations"].remove(last)
        states[2]["applied"][0] = [[site, count - (site == home)] for site, count in states[2]["applied"][0]]
        return states, last

    def clocks(self) -> None:
        """What a site has applied is known by its clock, also of operations that it doesn't show any more."""
        states = json.loads(json.dumps(self.states))
        states[2]["operations"] = []
        _, page = self.open(states)
        same("clocks", "behind", page.texts("#facts tr:nth-child(2) td"), ["0", "0", "0"])
        for name in ("B0.1", "R1"):
            chips = page.js("return [...document.querySelectorAll(`#rows [data-key$='/${arguments[0]}'] .at span`)]"
                            ".map((it) => it.className.trim())", name)
            same("clocks", f"where {name} is", chips, ["has", "has", "has"])

    def differs(self) -> None:
        """A site that lacks an operation, holds others, and waits to send."""
        states, last = self.lacking()
        states[2]["balances"]["ann"] += 7
        held = {"account": "ann", "amount": 7, "kind": "deposit", "name": "B1.99", "waits": [last["name"], "R77"]}
        states[2] |= {"held": [held], "holds": 3, "unsent": {"0": 0, "1": 1200}}
        _, page = self.open(states)
        facts = [row[2] for row in page.js("return [...document.querySelectorAll('#facts tr')].map((row) => "
                                           "[...row.querySelectorAll('td')].map((cell) => cell.textContent))")]
        same("differs", "facts of site 2", facts[1:], ["1 operation", "3", "1,200 to 1"])
        same("differs", "held", page.texts("#waiting li"),
             [f"B1.99 deposit ann 0.07 at site 2 waits for {last['name']}, R77", "and 2 more"])
        odd = page.js("return [...document.querySelectorAll('#accounts td.odd')].map((it) => "
                      "it.closest('tr').firstChild.textContent + it.cellIndex)")
        same("differs", "odd balances", odd, ["ann3", "all3"])
        same("differs", "the foot", page.text("#state"), "The sites differ: ann.")
        page.press("2")
        same("differs", "the site that lacks it", page.text("#lacks"), "it lacks 1 operation that others have")
        first = page.js("const it = document.querySelector('#rows tr'); return [it.querySelector('th').textContent, "
                        "...[...it.querySelectorAll('.at span')].map((each) => each.title)]")
        same("differs", "has it on top", first,
             [last["name"], "applied at site 0", "applied at site 1", "not yet at site 2"])
        same("differs", "and can't cancel it", page.all("#rows tr:first-child .cancel:enabled"), [])

    # ---- what is asked

    def click(self) -> None:
        """A deposit by the form, once for each click, each by an id of its own."""
        bank, page = self.open()
        before = self.states[0]["balances"]["ann"]
        page.type("#amount", "12.34")
        page.click("#do")
        page.says("#asks", "done: B0.")
        time.sleep(0.6)
        page.click("#do")
        page.until(lambda: len(page.all("#asks .done")) == 2)
        asked = bank.wait_for(2)
        same("click", "what is asked", [(site, event) for site, _, event in asked],
             [(0, {"deposit": ["ann", 1234]})] * 2)
        ids = {key for _, key, _ in asked}
        same("click", "the bank's period", bank.named, {bank.name})
        same("click", "ids", [len(ids), all(re.fullmatch("[A-Za-z0-9._:-]{1,64}", key) for key in ids)], [2, True])
        page.until(lambda: page.column(2)[0] == money(before + 2468))
        same("click", "ann everywhere", [page.column(site)[0] for site in range(3)], [money(before + 2468)] * 3)
        same("click", "the answers", page.texts("#asks b")[0].startswith("done: B0."), True)
        for text, wrong in (("5.005", "an amount is"), ("-1", "an amount is"), ("", "an amount is")):
            page.type("#amount", text)
            page.click("#do")
            same("click", f"what is said of {text}", wrong in page.text("#hint"), True)
        same("click", "none of these is asked", len(bank.asked), 2)

    def once(self) -> None:
        """A double click, a key that is held down, and the same again while it is asked: each is one request."""
        bank, page = self.open()
        ActionChains(page.driver).double_click(page.one("#do")).perform()
        page.says("#asks", "done")
        time.sleep(0.6)
        same("once", "a double click", len(bank.asked), 1)
        page.one("#amount").click()
        for repeats in (False, True, True):
            page.driver.execute_cdp_cmd("Input.dispatchKeyEvent", {
                "type": "keyDown", "key": "Enter", "code": "Enter", "text": "\r", "windowsVirtualKeyCode": 13,
                "autoRepeat": repeats})
        page.driver.execute_cdp_cmd("Input.dispatchKeyEvent", {"type": "keyUp", "key": "Enter", "code": "Enter",
                                                               "windowsVirtualKeyCode": 13})
        page.until(lambda: len(page.all("#asks .done")) == 2)
        time.sleep(0.3)
        same("once", "a key that is held down", len(bank.asked), 2)
        time.sleep(0.6)
        page.type("#amount", "7")
        page.press(Keys.ENTER, Keys.ENTER)
        page.until(lambda: len(page.all("#asks .done")) == 3)
        same("once", "a key that is pressed twice", len(bank.wait_for(4, 0.6)), 3)
        bank.sites[0].busy = 1
        page.click("#do")
        page.click("#do")
        page.until(lambda: len(page.all("#asks .done")) == 4)
        same("once", "ids while it is asked", len({key for _, key, _ in bank.asked[3:]}), 1)
        same("once", "requests", len(page.all("#asks li")), 4)

    def lost(self) -> None:
        """Replies that are lost: the same id is asked again, and the deposit is made once."""
        bank, page = self.open()
        before = self.states[0]["balances"]["ann"]
        bank.sites[0].lost = 3
        page.type("#amount", "1")
        page.click("#do")
        same("lost", "what is said meanwhile", page.says("#asks", "by the same id"), True)
        page.until(lambda: page.all("#asks .done"))
        asked = bank.wait_for(4)
        same("lost", "requests", len(asked), 4)
        same("lost", "ids", len({key for _, key, _ in asked}), 1)
        same("lost", "made once", page.column(0)[0], money(before + 100))

    def busy(self) -> None:
        """A site that sends clients away is asked again as late as it says."""
        bank, page = self.open()
        bank.sites[0].busy = 1
        begun = time.monotonic()
        page.click("#do")
        same("busy", "its words", page.says("#asks", "too much waits"), True)
        page.until(lambda: page.all("#asks .done"))
        same("busy", "a second later", time.monotonic() - begun >= 1, True)
        same("busy", "ids", len({key for _, key, _ in bank.wait_for(2)}), 1)

    def again(self) -> None:
        """A page that is loaded again asks by the same ids; what is stopped isn't asked, until someone says so."""
        bank, page = self.open()
        bank.sites[1].lost = 1_000_000
        page.press("1")
        page.click("#do")
        page.says("#asks", "by the same id")
        page.load()
        same("again", "after a reload", page.says("#asks", "by the same id"), True)
        page.until(lambda: page.all("#asks [data-stop]"))
        page.click("#asks [data-stop]")
        same("again", "its words", page.says("#asks", "It may have been made, or not"), True)
        time.sleep(0.5)
        count = len(bank.asked)
        bank.sites[1].lost = 0
        time.sleep(1.5)
        same("again", "what is stopped", len(bank.asked), count)
        page.click("#asks [data-again]")
        page.until(lambda: page.all("#asks .done"))
        same("again", "ids", len({key for _, key, _ in bank.asked}), 1)
        same("again", "sites", {site for site, _, _ in bank.asked}, {1})

    def refusals(self) -> None:
        """What a refusal, a declined withdrawal and a fault say; a line that is typed by hand."""
        bank, page = self.open()
        bank.replies = {'{"withdraw": ["ann", 500]}': {"kind": "declined", "name": "R99"},
                        '{"interest": ["ann", 500]}': {"refused": 11, "error": "interest over its limit"}}
        page.press("w")
        page.press(Keys.ENTER)
        same("refusals", "declined", page.says("#asks .no", "declined, as R99: the account has less"), True)
        page.press(Keys.ESCAPE, "i", Keys.ENTER)
        same("refusals", "refused", page.says("#asks .no", "refused: interest over its limit"), True)
        page.type("#line", '{"batch":[{"deposit":["ann",5]}]')
        page.press(Keys.ENTER)
        same("refusals", "no JSON", page.says("#hint", "no JSON"), True)
        page.type("#line", '{"batch":[{"deposit":["ann",5]}]}')
        page.press(Keys.ENTER)
        bank.wait_for(3)
        same("refusals", "a line by hand", bank.asked[-1][2], {"batch": [{"deposit": ["ann", 5]}]})

    def cancels(self) -> None:
        """A cancellation takes two clicks, and is asked at the site that is chosen."""
        bank, page = self.open()
        page.press("2")
        name = page.js("return document.querySelector('.cancel:enabled').dataset.cancel")
        page.click(f"[data-cancel='{name}']")
        time.sleep(0.2)
        same("cancels", "the first click", [len(bank.asked), page.text(f"[data-cancel='{name}']")],
             [0, f"sure? {name}"])
        bank.reply(bank.sites[0], {"deposit": ["bob", 1]})
        page.says("#rows .what", "deposit bob")
        same("cancels", "while others work", page.text(f"[data-cancel='{name}']"), f"sure? {name}")
        page.click(f"[data-cancel='{name}']")
        page.says("#asks", "done")
        same("cancels", "the second click", [(site, event) for site, _, event in bank.asked], [(2, {"cancel": name})])
        page.until(lambda: not page.all(f"[data-cancel='{name}']"))
        row = f"#rows [data-key$='/{name}']"
        same("cancels", "its row", page.text(f"{row}.undone td:last-child"), "cancelled")

    def token(self) -> None:
        """The token is passed by the site that has it."""
        bank, page = self.open()
        page.click(f"[data-pass='{self.other}']")
        page.says("#asks", "passed")
        same("token", "what is asked", [(site, event) for site, _, event in bank.asked],
             [(self.holder, {"pass": self.other})])
        same("token", "without an id, which a pass can't have", [key for _, key, _ in bank.asked], [""])
        same("token", "where it is", page.says(f"#heads th:nth-child({self.other + 2}) .badge", "◆ token"), True)

    def statements(self) -> None:
        """A statement and a balance as the chosen site answers them."""
        bank, page = self.open()
        page.press("1")
        page.click("[data-account='bob']")
        balance = money(self.states[1]["balances"]["bob"])
        same("statements", "the balance", page.says("#statement p", f"{balance} now"), True)
        same("statements", "rows", page.texts("#statement tr:nth-child(2) td"), ["2", "B1.1 cancel", "-5.00", "0.00"])
        same("statements", "its site", page.text("#statement-title"), "bob at site 1")
        page.press(Keys.ESCAPE)
        bank.sites[1].down()
        page.click("[data-account='bob']")
        same("statements", "of a site that is down", page.says("#statement p", "Site 1 doesn't answer"), True)

    # ---- while something is down

    def down(self) -> None:
        """A site is down: the page says so, keeps what it reported, and the others go on."""
        bank, page = self.open()
        site, column = self.other, self.other + 2
        before = page.column(site)
        bank.sites[site].down()
        same("down", "is said", page.says("#notes", f"Site {site}: no answer since"), True)
        same("down", "of the others", "The other sites go on." in page.text("#notes"), True)
        same("down", "what it reported stays", page.column(site), before)
        same("down", "and is grey", len(page.all(f"#accounts td:nth-child({column}).gone")), len(before))
        page.click("#do")
        page.says("#asks", "done")
        page.until(lambda: page.column(0) != before)
        same("down", "a deposit elsewhere", [page.column(0) == page.column(self.holder), page.column(site)],
             [True, before])
        same("down", "it is behind", page.says(f"#facts tr:nth-child(2) td:nth-child({column})", "1 operation"), True)
        chip = page.one(f"#rows tr:first-child .at :nth-child({site + 1})").get_attribute("title")
        same("down", "where the deposit is", chip, f"not yet at site {site}")
        same("down", "a site that has no token keeps nobody", "token was last seen" in page.text("#notes"), False)
        self.shot("service_down")

    def up_again(self) -> None:
        """The site with the token is down, and another one: both come back with what they missed."""
        bank, page = self.open()
        for site in (self.holder, self.other):
            bank.sites[site].down()
        same("up_again", "the token", page.says("#notes", f"The token was last seen at site {self.holder}"), True)
        page.click("#do")
        page.says("#asks", "done")
        for site in (self.holder, self.other):
            bank.sites[site].state = json.loads(json.dumps(bank.sites[0].state)) | {"site": site}
            bank.sites[site].start()
        same("up_again", "nothing is down", page.until(lambda: not page.text("#notes").strip()), True)
        columns = page.until(lambda: page.column(0) == page.column(1) == page.column(2))
        same("up_again", "all have the deposit", columns, True)

    def asked_down(self) -> None:
        """What is asked of a site that is down is asked until it is up, by one id."""
        bank, page = self.open()
        bank.sites[1].down()
        page.says("#notes", "Site 1: no answer")
        page.press("1")
        same("asked_down", "the form says so", page.says("#hint", "site 1 doesn't answer"), True)
        page.click("#do")
        page.says("#asks", "by the same id")
        bank.sites[1].start()
        same("asked_down", "is made", page.says("#asks", "done: B1."), True)
        same("asked_down", "ids", len({key for _, key, _ in bank.asked}), 1)

    def silent(self) -> None:
        """A machine that is gone without a word: its connections stay open, and it is seen all the same."""
        bank, page = self.open()
        bank.sites[2].speaks.clear()
        same("silent", "is seen", page.says("#notes", "Site 2: no answer since", 20), True)
        bank.sites[2].speaks.set()
        same("silent", "speaks again", page.until(lambda: not page.text("#notes").strip(), 20), True)

    def own_down(self) -> None:
        """The site that served the page is down: the page goes on with the others."""
        bank, page = self.open()
        bank.sites[0].down()
        page.says("#notes", "Site 0: no answer")
        page.press("2")
        page.click("#do")
        same("own_down", "a deposit elsewhere", page.says("#asks", "done: B2."), True)

    def periods(self) -> None:
        """The books are closed: names begin anew, and what was asked before isn't made in the next period."""
        bank, page = self.open()
        bank.sites[1].lost = 1_000_000
        page.press("1")
        page.click("#do")
        page.says("#asks", "by the same id")
        page.says("#accounts", money(self.states[0]["balances"]["ann"] + 500))
        before = page.column(0)
        for site in bank.sites:
            site.state["closing"] = True
            site.tell()
        same("periods", "while it closes", page.says("#heads th:nth-child(2)", "closes its books: clients wait"), True)
        for site in bank.sites:
            site.state["up"] = False
            site.tell()
        same("periods", "while its program is away", [page.column(0), page.text("#heads th:nth-child(2) .why")],
             [before, "closes its books: clients wait"])
        bank.name, first = bank.name + "-next", bank.name
        for site in bank.sites:
            site.state["balances"]["zed"] = 0
            site.state |= {"applied": [[], 0], "bank": bank.name, "closing": False, "operations": [], "up": True}
            site.state["token"] = {"epoch": 0, "here": site.number == 0, "to": 0}
            site.tell()
        bank.sites[1].lost = 0
        same("periods", "the old request", page.says("#asks .no", "this is of a period that is closed"), True)
        same("periods", "the period", page.says("#who", f"{bank.name}: 3 sites, 6 accounts"), True)
        same("periods", "its operations", page.says("#rows", "None yet."), True)
        same("periods", "balances are carried forward", page.column(0), [*before[:-1], "0.00", before[-1]])
        page.click("#do")
        same("periods", "a deposit", page.says("#asks", "done: B1.1."), True)
        same("periods", "its row", page.until(lambda: page.texts("#rows .name")), ["B1.1"])
        same("periods", "where it is", len(page.all("#rows .at .has")), 3)
        same("periods", "the periods that were named", bank.named, {first, bank.name})

    def access(self) -> None:
        """A bank that wants a client's token gets it with each request, and the page asks for it."""
        bank, page = self.open(secret="s3cret")
        page.until(lambda: page.all("#secret"))
        page.type("#secret", "s3cret")
        page.press(Keys.ENTER)
        same("access", "sites that answer", page.until(lambda: len(page.all("#heads .dot.up")) == 3), True)
        page.click("#do")
        same("access", "a deposit", page.says("#asks", "done"), True)

    # ---- for everyone

    def markup(self) -> None:
        """Whatever is written by others is text: names, kinds, reasons, what is typed."""
        states = json.loads(json.dumps(self.states).replace('"ann"', json.dumps(MARKUP)).replace('"bob"', '"&amp;<b>"'))
        for state in states:
            state["held"] = [{"account": MARKUP, "amount": 1, "kind": MARKUP, "name": "B1.99", "waits": [MARKUP]}]
            state["operations"][-1]["kind"] = MARKUP
        bank, page = self.open(states)
        bank.replies = {json.dumps({"withdraw": [MARKUP, 500]}): {"error": MARKUP}}
        page.press("w", Keys.ENTER)
        page.says("#asks .no", "<img")
        page.press(Keys.ESCAPE)
        page.press_on(page.one(".account"))
        page.says("#statement p", "now")
        found = page.js("return [document.images.length, document.querySelectorAll('#accounts b').length, "
                        "window.hurt ?? 0]")
        same("markup", "images, bold names, scripts that ran", found, [0, 0, 0])
        same("markup", "a name as it is", page.texts("#accounts .account")[:2], [MARKUP, "&amp;<b>"])
        same("markup", "a reason as it is", MARKUP in page.text("#asks"), True)

    def keys(self) -> None:
        """A run with no mouse; the focus stays while the page is drawn anew."""
        bank, page = self.open()
        page.press("1", "d", "75", Keys.ENTER)
        page.says("#asks", "done: B1.")
        page.press(Keys.ESCAPE, "t", "2.5", Keys.ENTER, Keys.ESCAPE)
        page.says("#asks", "refused")
        wanted = [(1, {"deposit": ["ann", 7500]}), (1, {"transfer": ["ann", "bob", 250]})]
        same("keys", "what is asked", [(site, event) for site, _, event in bank.asked], wanted)
        name = page.js("const it = document.querySelector('.cancel:enabled'); it.focus(); return it.dataset.cancel")
        bank.reply(bank.sites[0], {"deposit": ["bob", 1]})
        page.says("#rows .what", "deposit bob")
        bank.reply(bank.sites[2], {"deposit": ["eve", 1]})
        page.until(lambda: len(page.all("#rows tr")) == len(self.states[0]["operations"]) + 3)
        same("keys", "the focus", page.js("return document.activeElement.dataset.cancel"), name)
        page.press(Keys.ARROW_UP, Keys.ARROW_UP, Keys.ARROW_DOWN, Keys.ARROW_DOWN)
        same("keys", "up and down", page.js("return document.activeElement.dataset.cancel"), name)
        page.press(Keys.ENTER)
        same("keys", "the focus while it is confirmed", page.js("return document.activeElement.textContent"),
             f"sure? {name}")
        page.press(Keys.ENTER)
        bank.wait_for(3)
        same("keys", "a cancellation", bank.asked[-1][2], {"cancel": name})
        page.js("document.activeElement.blur()")
        page.press("?")
        same("keys", "the page of keys", page.one("#marks").is_displayed(), True)
        page.press(Keys.ESCAPE, "/", "fund")
        page.settle()
        same("keys", "filtered", page.texts("#accounts .account"), ["fund.a", "fund.b"])

    def names(self) -> None:
        """Whatever takes the focus has a name for screen readers; the focus goes through the page's parts in order."""
        _, page = self.open()
        nameless = [it.get_attribute("outerHTML")[:80] for it in page.all("button, input, select, [tabindex]")
                    if it.is_displayed() and not it.accessible_name]
        same("names", "without a name", nameless, [])
        roles = [page.one(each).aria_role for each in ("main", "aside", "#bank", "#notes", "#act", "footer")]
        same("names", "parts", roles, ["main", "complementary", "region", "status", "form", "contentinfo"])
        page.js("document.getElementById('filter').focus()")
        parts = []
        for _ in range(200):
            page.driver.switch_to.active_element.send_keys(Keys.TAB)
            part = page.js("return document.activeElement.closest('header,main,aside,footer')?.localName")
            if part and part not in parts:
                parts.append(part)
            if part == "aside":
                break
        same("names", "the focus goes through", parts, ["header", "main", "aside"])

    def contrast(self) -> None:
        """Every text has a contrast of 4.5 at least, in light and dark, with a site down and something held."""
        states = json.loads(json.dumps(self.states))
        held = {"account": "ann", "amount": 7, "kind": "deposit", "name": "B1.99", "waits": ["R77"]}
        states[1] |= {"held": [held], "holds": 1, "unsent": {"0": 2}}
        states[1]["balances"]["bob"] += 1
        bank, page = self.open(states)
        bank.sites[2].down()
        page.says("#notes", "Site 2")
        page.click("#do")
        page.press("w", Keys.ENTER)
        page.says("#asks .no", "refused")
        with open(os.path.join(HERE, "contrast.js"), encoding="utf-8") as file:
            script = file.read()
        for theme in ("light", "dark"):
            same("contrast", f"{theme}: theme", page.js("return document.documentElement.dataset.theme"), theme)
            same("contrast", f"{theme}: texts that are hard to read", page.js(script), [])
            self.shot(f"contrast-{theme}")
            page.click("#theme")

    def network(self) -> None:
        """Nothing is loaded from elsewhere: the page asks its own sites alone."""
        bank, page = self.open()
        page.click("#do")
        page.says("#asks", "done")
        urls = page.js("return performance.getEntriesByType('resource').map((it) => it.name)")
        same("network", "asked elsewhere", [url for url in urls if not url.startswith(tuple(bank.addresses))], [])
        same("network", "asked at all", len(urls) > 3, True)
        with open(self.path, encoding="utf-8") as file:
            same("network", "addresses in the page", re.findall(r"https?://[^\s'\"`]+|@import|url\(", file.read()), [])

    def thousand(self) -> None:
        """A thousand accounts: those that changed last, and those that the filter names."""
        states = json.loads(json.dumps(self.states))
        for state in states:
            state["balances"] = {f"a{n}": n for n in range(1000)}
        bank, page = self.open(states)
        same("thousand", "more", "and 940 accounts more" in page.text("#accounts"), True)
        bank.reply(bank.sites[0], {"deposit": ["a777", 1]})
        same("thousand", "what changed is first", page.says("#accounts tr:first-child th", "a777"), True)
        page.type("#filter", "99")
        page.settle()
        same("thousand", "filtered", page.texts("#accounts .account"), [f"a{n}" for n in range(1000) if "99" in str(n)])

    def sixteen(self) -> None:
        """Sixteen sites."""
        states = [self.states[0] | {"site": n, "token": {"epoch": 0, "here": n == 0, "to": 0}} for n in range(16)]
        bank, page = self.open(states)
        page.click("#at [data-site='15']")
        page.click("#do")
        same("sixteen", "a deposit", page.says("#asks", "done: B15.1"), True)
        same("sixteen", "wider than the page", page.is_wide(), False)
        self.shot("sixteen")

    def phone(self) -> None:
        """On a phone's width nothing is wider than the page, and a deposit can be made."""
        bank, page = self.open()
        page.resize(500, 850)
        page.js("document.getElementById('do').scrollIntoView()")
        page.click("#do")
        same("phone", "a deposit", page.says("#asks", "done"), True)
        same("phone", "wider than the page", page.is_wide(), False)
        self.shot("phone")

    def all(self, only: str | None) -> int:
        count = 0
        for check in (self.shows, self.differs, self.clocks, self.click, self.once, self.lost, self.busy, self.again,
                      self.refusals, self.cancels, self.token, self.statements, self.down, self.up_again,
                      self.asked_down, self.silent, self.own_down, self.periods, self.access, self.markup, self.keys,
                      self.names, self.contrast, self.network, self.thousand, self.sixteen, self.phone):
            if only not in (None, check.__name__):
                continue
            count += 1
            try:
                check()
            except browser.WebDriverException as why:
                same(check.__name__, "in the browser", str(why).split("\n")[0], "")
            finally:
                self.bank.stop()
        return count


class Services:
    """The page over a bank of services, with a program of the bank under each."""

    def __init__(self, page: Page, bank: Any) -> None:
        self.page, self.bank = page, bank

    def ask(self, site: int, *keys: str) -> str:
        """Asks a site by keys: what is said of it once it is answered."""
        page = self.page
        page.press(Keys.ESCAPE, str(site), *keys, Keys.ENTER)
        page.until(lambda: page.all("#asks li:first-child:is(.done, .no)"), 60)
        return page.text("#asks li:first-child")

    def alike(self, name: str) -> None:
        """All sites come to show the same, which is what each of them answers."""
        page, sites = self.page, range(self.bank.sites)

        def answered(site: int) -> list[str]:
            asked = [self.bank.get(site, f"/balance/{account}")["balance"] for account in page.texts(".account")]
            return [money(cents) for cents in asked]
        shown = page.until(lambda: all(page.column(site)[:-1] == answered(site) for site in sites) and
                           page.says("#state", "All sites have the same balances.", 0) and
                           set(page.texts("#facts tr:nth-child(2) td")) == {"0"}, 60)
        same(name, "all sites are alike, and none is behind", bool(shown), True)
        for site in sites:
            same(name, f"balances of site {site}", page.column(site)[:-1], answered(site))

    def works(self) -> None:
        """Deposits, a withdrawal without the token, a cancellation at another site, a passed token, a statement."""
        page = self.page
        made = re.findall(r"done: (B1\.\d+)", self.ask(1, "d", "50"))
        same("works", "a deposit", len(made), 1)
        self.alike("a deposit")
        same("works", "a withdrawal at a site without the token", "done: R" in self.ask(2, "w", "1.25"), True)
        self.alike("a withdrawal")
        page.press(Keys.ESCAPE, "0")
        for _ in range(2):
            page.click(f"[data-cancel='{made[0]}']")
        same("works", "a cancellation", page.until(lambda: page.all("#asks li:first-child.done"), 60) != [], True)
        self.alike("a cancellation")
        at = page.one(".pass").get_attribute("data-pass")
        page.click(f"[data-pass='{at}']")
        same("works", "the token", page.says(f"#heads th:nth-child({int(at) + 2}) .badge", "◆ token", 30), True)
        page.click("[data-account='ann']")
        page.says("#statement p", "now")
        rows = self.bank.get(0, "/statement/ann")["rows"]
        found = page.texts("#statement tr td:nth-child(3)")
        same("works", "the statement", found, [money(row[3]) for row in reversed(rows)])
        page.press(Keys.ESCAPE)

    def goes_on(self) -> None:
        """A service is killed: the others go on, and what it is asked meanwhile is made once, when it is back."""
        page, bank = self.page, self.bank
        before = page.column(2)
        bank.running[2].kill()
        bank.running[2].wait()
        same("goes_on", "is said", page.says("#notes", "Site 2: no answer since", 30), True)
        same("goes_on", "a deposit elsewhere", "done: B0." in self.ask(0, "d", "3"), True)
        page.until(lambda: page.column(1) != before)
        same("goes_on", "what it reported stays", page.column(2), before)
        page.press(Keys.ESCAPE, "2", "d", "4", Keys.ENTER)
        same("goes_on", "it is asked again", page.says("#asks li:first-child", "by the same id"), True)
        bank.start(2)
        same("goes_on", "is made", page.says("#asks li:first-child", "done: B2.", 60), True)
        self.alike("all are back")
        rows = [row for row in bank.get(1, "/statement/ann")["rows"] if row[3] == 400]
        same("goes_on", "deposits of 4.00", len(rows), 1)


def over_services(driver: Any, program: str) -> None:
    import cluster
    cluster.check_packages()
    with tempfile.TemporaryDirectory(prefix="bank-") as folder:
        broker = cluster.Cluster(os.path.join(folder, "broker"))
        bank = cluster.Bank(program, folder, broker)
        try:
            broker.start_all()
            for site in range(bank.sites):
                bank.start(site)
            for site in range(bank.sites):
                bank.wait(site)
            page = Page(driver, f"http://{bank.http[0]}/")
            page.until(lambda: len(page.all("#heads .dot.up")) == bank.sites, 60)
            checks = Services(page, bank)
            checks.works()
            checks.goes_on()
        finally:
            bank.stop()
            broker.stop()


def faults(driver: Any) -> list[str]:
    """Faults of the page's own script. That a site which is down can't be reached is none."""
    return [entry["message"] for entry in driver.get_log("browser")
            if entry["level"] == "SEVERE" and "Failed to load resource" not in entry["message"]]


def mutants(driver: Any) -> int:
    """Tries each patch on a copy of the page: how many weren't caught."""
    missed = 0
    for patch in sorted(glob.glob(os.path.join(HERE, "mutants", "*.patch"))):
        with open(patch, encoding="utf-8") as file:
            check = re.search(r"(?m)^caught by: browse\.py (\w+)$", file.read())
        if check is None:
            continue
        with tempfile.TemporaryDirectory() as folder:
            os.mkdir(os.path.join(folder, "service"))
            path = os.path.join(folder, "service", "console.html")
            with open(PAGE, "rb") as source, open(path, "wb") as copy:
                copy.write(source.read())
            applied = subprocess.run(["git", "apply", "--unsafe-paths", patch], cwd=folder).returncode == 0
            PROBLEMS.clear()
            Browse(driver, path, None).all(check[1])
        end = "DOESN'T APPLY" if not applied else "caught" if PROBLEMS else "NOT CAUGHT"
        missed += end != "caught"
        print(f"{end:10} {os.path.basename(patch).removesuffix('.patch')}", flush=True)
    PROBLEMS.clear()
    return missed


def options() -> argparse.Namespace:
    reader = argparse.ArgumentParser(description=__doc__, formatter_class=argparse.RawDescriptionHelpFormatter)
    reader.add_argument("--only", metavar="CHECK")
    reader.add_argument("--shots", metavar="FOLDER")
    reader.add_argument("--mutants", action="store_true")
    reader.add_argument("--services", metavar="PROGRAM")
    return reader.parse_args()


def main() -> int:
    asked = options()
    signal.signal(signal.SIGTERM, signal.default_int_handler)  # what was started is ended
    driver = browser.browser(False, None)
    try:
        if asked.mutants:
            return 1 if mutants(driver) else 0
        if asked.services:
            over_services(driver, asked.services)
        count = 2 if asked.services else Browse(driver, PAGE, asked.shots).all(asked.only)
        same("page", "errors in the browser", faults(driver), [])
    finally:
        driver.quit()
    print("\n".join(PROBLEMS), end="\n" if PROBLEMS else "")
    print(f"{count} checks, {len(PROBLEMS)} problems")
    return 1 if PROBLEMS or not count else 0


if __name__ == "__main__":
    sys.exit(main())
