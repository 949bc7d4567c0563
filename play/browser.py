"""The playground's page in a browser, used as a person does: by clicks, drags, touch and keys."""
from __future__ import annotations

import shutil
import sys
from typing import Any

import child  # noqa: F401  (which finds the tools of examples/)
import bank
import play

DEBIAN = "Debian: apt-get install chromium chromium-driver python3-selenium; and /usr/bin/python3"
try:
    from selenium import webdriver
    from selenium.common.exceptions import WebDriverException  # noqa: F401
    from selenium.webdriver.common.action_chains import ActionChains
    from selenium.webdriver.common.by import By
    from selenium.webdriver.common.keys import Keys
    from selenium.webdriver.remote.file_detector import UselessFileDetector
except ImportError:
    sys.stderr.write(f"browse: {sys.executable} has no selenium ({DEBIAN}): nothing was tried\n")
    sys.exit(77)

Json = dict[str, Any]
PROBLEMS: list[str] = []
# what the page's own files know, for questions
INSIDE = ("import * as state from '/state.js'; import * as program from '/program.js'; "
          "import * as basics from '/basics.js'; window.inside = {...state, ...program, ...basics};")


def same(name: str, what: str, found: Any, wanted: Any) -> None:
    if found != wanted:
        PROBLEMS.append(f"{name}: {what}\n  found  {str(found)[:400]}\n  wanted {str(wanted)[:400]}")


class Handler(play.Handler):
    """The server's handler, with one file more: it lets a driver ask what the page knows."""

    def do_GET(self) -> None:
        if self.path == "/inside.js":
            self.answer(INSIDE, "text/javascript")
        else:
            super().do_GET()


def chromium() -> Any:
    words = webdriver.ChromeOptions()
    for word in ("--headless=new", "--no-sandbox", "--disable-gpu", "--disable-dev-shm-usage",
                 "--force-device-scale-factor=1", "--window-size=1280,900"):
        words.add_argument(word)
    words.set_capability("goog:loggingPrefs", {"browser": "ALL"})
    from selenium.webdriver.chrome.service import Service
    return webdriver.Chrome(options=words, service=Service(shutil.which("chromedriver")))


def firefox() -> Any:
    words = webdriver.FirefoxOptions()
    words.add_argument("-headless")
    from selenium.webdriver.firefox.service import Service
    return webdriver.Firefox(options=words, service=Service(shutil.which("geckodriver")))


def browser(is_firefox: bool, remote: str | None) -> Any:
    if remote:
        found = webdriver.Remote(remote, options=webdriver.FirefoxOptions())
        found.file_detector = UselessFileDetector()  # files are named, not sent
        found.set_script_timeout(120)
        return found
    driver = "geckodriver" if is_firefox else "chromedriver"
    if not shutil.which(driver):
        sys.stderr.write(f"browse: no {driver} is installed ({DEBIAN}): nothing was tried\n")
        sys.exit(77)
    found = firefox() if is_firefox else chromium()
    found.set_script_timeout(120)
    return found


class Page:
    """The page, used as a person does: by clicks, drags and keys."""

    def __init__(self, driver: Any, address: str) -> None:
        self.driver, self.address = driver, address
        self.resize(1280, 800)
        self.load()

    def load(self, path: str = "") -> None:
        self.driver.get("about:blank")
        self.driver.get(self.address + path)
        self.js("const it = document.createElement('script'); it.type = 'module'; it.src = '/inside.js'; "
                "document.head.append(it)")
        self.settle()

    def resize(self, width: int, height: int) -> None:
        self.driver.set_window_size(width, height)
        inner = self.js("return [innerWidth,innerHeight]")
        self.driver.set_window_size(2 * width - inner[0], 2 * height - inner[1])

    def js(self, text: str, *given: Any) -> Any:
        return self.driver.execute_script(text, *given)

    def ask(self, text: str, *given: Any) -> Any:
        """What this says with what the page's files know."""
        known = "const {S, open, act, travel, changed, fold, deliveries, lineOf, stop} = window.inside; "
        return self.js(known + text, *given)

    def settle(self) -> None:
        """Waits until nothing is under way."""
        self.driver.execute_async_script(
            "const done = arguments[0], wait = (when, ...of) => new Promise((go) => when(go, ...of)); (async () => { "
            "do { await wait(setTimeout, 1); await window.inside?.atRest(); } while (!window.inside?.S.world); "
            "await wait(requestAnimationFrame); await wait(setTimeout); done(); })()")

    def one(self, selector: str) -> Any:
        return self.driver.find_element(By.CSS_SELECTOR, selector)

    def all(self, selector: str) -> list[Any]:
        return self.driver.find_elements(By.CSS_SELECTOR, selector)

    def click(self, selector: str) -> None:
        self.one(selector).click()
        self.settle()

    def press(self, *keys: str) -> None:
        ActionChains(self.driver).send_keys(*keys).perform()
        self.settle()

    def open(self, text: str) -> None:
        self.ask("open(arguments[0], true)", text)
        self.settle()

    def open_bank(self, config: Json) -> None:
        self.open(bank.compact(config) + "\n")

    # ---- one command

    def put(self, key: str, value: Any) -> bool:
        field = self.one(f"#act [data-field={key}]")
        if field.tag_name == "select":
            options = field.find_elements(By.TAG_NAME, "option")
            chosen = next((it for it in options if it.get_attribute("value") == str(value)), None)
            if chosen is not None:
                chosen.click()
            return chosen is not None
        field.clear()
        field.send_keys(str(value))
        return True

    def typed(self, command: Json) -> str:
        """The line that says it, as a person types it."""
        line = self.one("#line")
        line.clear()
        line.send_keys(bank.compact(command), Keys.ENTER)
        self.settle()
        return "typed"

    def sent(self) -> str:
        self.click("#do")
        return "form"

    def form(self, verb: str, command: Json) -> str:
        """Chooses the site and what is done, fills in the form, and sends it."""
        sites = self.all(f"#act [data-site='{command['site']}']")
        if not sites:
            return self.typed(command)
        sites[0].click()
        self.one(f"#act [data-verb='{verb}']").click()
        value = command[verb]
        if not self.all("#act [data-field]"):
            return self.typed(command)
        if not all(self.put(key, each) for key, each in bank.fields(command).items()):
            return self.typed(command)
        return self.sent()

    def batch(self, command: Json) -> str:
        if any(len(bank.fields(each)) != 2 for each in command["batch"]):
            return self.typed(command)
        self.one(f"#act [data-site='{command['site']}']").click()
        self.one("#act [data-verb='batch']").click()
        for each in command["batch"]:
            self.one(f"#act [data-verb='{''.join(each)}']").click()
            if not all(self.put(key, part) for key, part in bank.fields(each).items()):
                self.one("#act [data-verb='batch']").click()
                return self.typed(command)
            self.one("#do").click()
        self.click("#make")
        return "form"

    def press_on(self, button: Any) -> None:
        self.js("arguments[0].scrollIntoView({block:'nearest',inline:'nearest'})", button)
        button.click()
        self.settle()

    def deliver(self, command: Json) -> str:
        """Clicks the chip below its site, or drags one from another site."""
        n, to = command["deliver"], command["site"]
        here = self.all(f"[data-key='{to}:{n}'].chip")
        if here:
            self.press_on(here[0])
            return "chip"
        there, dock = self.all(f".chip[data-msg='{n}']"), self.all(f"[data-dock='{to}']")
        if there and dock:
            self.js("arguments[0].scrollIntoView({block:'nearest'})", there[0])
            ActionChains(self.driver, 60).click_and_hold(there[0]).move_to_element(dock[0]).release().perform()
            self.settle()
            return "drag"
        return self.typed(command)

    def do(self, command: Json) -> str:
        """One command of a script, by whatever on the page does it; and how."""
        verb = next(key for key in command if key != "site")
        if verb == "deliver":
            return self.deliver(command)
        if verb == "apply":
            held = self.all(f".held[data-apply='{command['apply']}'][data-at='{command['site']}']")
            if not held:
                return self.typed(command)
            self.press_on(held[0])
            return "held"
        return self.batch(command) if verb == "batch" else self.form(verb, command)

    # ---- what is shown

    def replies(self) -> list[Json]:
        return self.ask("return S.world.steps.map((step) => step.reply)")

    def balances(self) -> list[dict[str, int]]:
        return self.js("return [...document.querySelectorAll('.card')].map((card) => Object.fromEntries("
                       "[...card.querySelectorAll('.sums span:nth-child(3n+1)')].map((name) => "
                       "[name.textContent, Number(name.nextElementSibling.textContent)])))")

    def texts(self, selector: str) -> list[str]:
        return self.js("return [...document.querySelectorAll(arguments[0])].map((each) => each.textContent)", selector)
