"""A headless Chromium that is driven by what a person sees: labels, buttons and headings. Whatever it complains of is kept."""
import json
import os
import time

from selenium import webdriver
from selenium.common.exceptions import StaleElementReferenceException
from selenium.webdriver.chrome.options import Options
from selenium.webdriver.chrome.service import Service
from selenium.webdriver.common.action_chains import ActionChains
from selenium.webdriver.common.by import By
from selenium.webdriver.common.keys import Keys

PATIENCE = 100
HERE = os.path.dirname(os.path.abspath(__file__))

# Finds what can be seen by its words. It stands in the page's own world only while it is called.
FIND = """
const [what, words, scope] = arguments;
const isSeen = (it) => it.checkVisibility({visibilityProperty: true});
const plain = (text) => text.replace(/\\s+/g, " ").trim();
const root = scope ?? document.body;
const all = (selector) => [...root.querySelectorAll(selector)].filter(isSeen);
const named = (selector) => all(selector).find((it) => plain(it.textContent) === words);
const nameOf = (it) => plain([...it.childNodes].filter((part) => part.className !== "required").map((part) => part.textContent).join(""));
const label = () => all("label, legend").find((it) => nameOf(it) === words);
switch (what) {
  case "button": return named("button, summary");
  case "control": { const it = label(); return it && (document.getElementById(it.htmlFor) ?? it.closest("fieldset")); }
  case "part": return all("li, section, details, fieldset").reverse().find((it) => plain(it.textContent).includes(words));
}
"""


def until(find, what):
    """What `find` gives once it gives something."""
    end = time.monotonic() + PATIENCE
    while True:
        try:
            found = find()
        except StaleElementReferenceException:
            found = None
        if found:
            return found
        if time.monotonic() > end:
            raise AssertionError(f"not seen: {what() if callable(what) else what}")
        time.sleep(0.03)


def make_driver(room, languages="en-US,en", javascript=True):
    options = Options()
    for word in ("--headless=new", "--no-sandbox", "--disable-dev-shm-usage", "--disable-gpu", "--ignore-certificate-errors",
                 "--disable-background-networking", "--disable-component-update", "--no-first-run", f"--user-data-dir={room}/profile-{time.monotonic_ns()}"):
        options.add_argument(word)
    preferences = {"intl.accept_languages": languages, "credentials_enable_service": False, "profile.password_manager_leak_detection": False}
    if not javascript:
        preferences["profile.managed_default_content_settings.javascript"] = 2
    options.add_experimental_option("prefs", preferences)
    options.set_capability("goog:loggingPrefs", {"browser": "ALL", "performance": "ALL"})
    return webdriver.Chrome(service=Service("/usr/bin/chromedriver"), options=options)


class Browser:
    """One browser, with one page at a time in view."""

    def __init__(self, room, origin, **how):
        self.room, self.origin = room, origin
        self.driver = make_driver(room, **how)
        self.expected, self.seen_refusals, self.complaints, self.asked = [], [], [], set()
        self.downloads = f"{room}/downloads"
        os.makedirs(self.downloads, exist_ok=True)
        self.driver.execute_cdp_cmd("Browser.setDownloadBehavior", {"behavior": "allow", "downloadPath": self.downloads})
        self.driver.execute_cdp_cmd("Browser.grantPermissions", {"origin": origin, "permissions": ["clipboardReadWrite", "clipboardSanitizedWrite"]})
        self.before_each("window.print = () => { window.printed = true; };")
        self.width(1280)

    def before_each(self, script):
        self.driver.execute_cdp_cmd("Page.addScriptToEvaluateOnNewDocument", {"source": script})

    def width(self, pixels, scale=1):
        size = {"width": pixels, "height": 900, "deviceScaleFactor": scale, "mobile": False}
        self.driver.execute_cdp_cmd("Emulation.setDeviceMetricsOverride", size)

    def open(self, path):
        self.driver.get(self.origin + path)

    def run(self, script, *words):
        return self.driver.execute_script(script, *words)

    def run_module(self, script, *words):
        """Runs a script that ends by calling `done`; it may import the pages' modules."""
        self.driver.set_script_timeout(120)
        found = self.driver.execute_async_script(
            "const done = arguments[arguments.length - 1]; (async () => {" + script + "})().catch((error) => done(`failed: ${error.stack}`));", *words)
        assert not (isinstance(found, str) and found.startswith("failed: ")), found
        return found

    # ---- what is seen

    def text(self):
        return self.run("return document.getElementById('main').innerText + '\\n' + document.getElementById('status').innerText")

    def heading(self):
        return self.run("return document.querySelector('h1')?.innerText ?? ''")

    def at(self, heading):
        """Waits for a view by its heading."""
        def is_there():
            return self.heading() == heading and not self.run("return document.getElementById('main').hasAttribute('aria-busy')")

        until(is_there, lambda: f"the view {heading!r}; it is {self.heading()!r} with {self.text()[:600]!r}")
        return self

    def sees(self, *words):
        for it in words:
            until(lambda: it in self.text(), lambda: f"{it!r} in {self.text()!r}")

    def sees_not(self, *words):
        text = self.text()
        for it in words:
            assert it not in text, f"seen, but should not be: {it!r}"

    def settled(self):
        """Waits until nothing is under way."""
        until(lambda: not self.run("return document.querySelector('[aria-busy=true], [aria-disabled=true]')"), "an end of what is under way")

    def find(self, what, words, scope=None):
        self.settled()
        return until(lambda: self.run(FIND, what, words, scope), lambda: f"the {what} {words!r} at {self.heading()!r}: {self.text()!r}")

    def offers(self, words, scope=None):
        """Whether a button is there."""
        return self.run(FIND, "button", words, scope) is not None

    def part(self, words):
        return self.find("part", words)

    # ---- what is done

    def press(self, *words, scope=None):
        for it in words:
            button = self.find("button", it, scope)
            self.run("arguments[0].scrollIntoView({block: 'center'})", button)
            button.click()
            self.settled()

    def type(self, label, text, scope=None):
        """Types into the control of a label, in the place of what stands there."""
        control = self.find("control", label, scope)
        self.run("arguments[0].scrollIntoView({block: 'center'})", control)
        if control.get_attribute("type") == "date":
            control.send_keys(text[5:7] + text[8:10] + text[:4])
            return
        control.clear()
        if len(text) > 500:
            self.run("arguments[0].value = arguments[1]; arguments[0].dispatchEvent(new Event('input', {bubbles: true}))", control, text)
        else:
            control.send_keys(text)

    def choose(self, label, *options):
        """Chooses under a legend or in a list."""
        control = self.find("control", label)
        for it in options:
            if control.tag_name == "select":
                [found] = [option for option in control.find_elements(By.TAG_NAME, "option") if option.text == it]
                found.click()
            else:
                self.tick(it, control)

    def tick(self, label, scope=None):
        box = self.find("control", label, scope)
        self.run("arguments[0].scrollIntoView({block: 'center'})", box)
        box.click()

    def attach(self, label, path):
        self.find("control", label).send_keys(path)

    def keys(self, *keys):
        ActionChains(self.driver, duration=0).send_keys(*keys).perform()

    def focused(self):
        """The name of what has the focus."""
        return self.run("""const it = document.activeElement; const name = (x) => x.textContent.replace(/\\s+/g, " ").trim();
            return it.labels?.length ? name(it.labels[0]) : name(it)""")

    # ---- what the browser complains of

    def expect(self, *refusals):
        """Says which refusals the pages will be told next, by status; `0` is a lost connection."""
        self.expected += refusals

    def listen(self):
        """Takes over what the browser told since the last time."""
        for entry in self.driver.get_log("browser"):
            if entry["source"] == "network" and "/t/" in entry["message"]:
                words = entry["message"].split("status of ")
                self.seen_refusals.append(int(words[1][:3]) if len(words) > 1 else 0)
            else:
                self.complaints.append(entry["message"])
        for entry in self.driver.get_log("performance"):
            told = json.loads(entry["message"])["message"]
            if told["method"] == "Network.requestWillBeSent" and not told["params"]["documentURL"].startswith("chrome"):
                self.asked.add(told["params"]["request"]["url"])

    def is_quiet(self):
        """Nothing was complained of but the refusals that were to come."""
        self.listen()
        assert self.complaints == [], f"the browser complains: {self.complaints}"
        assert sorted(self.seen_refusals) == sorted(self.expected), f"refusals {self.seen_refusals} in the place of {self.expected}"
        self.seen_refusals, self.expected = [], []
        others = [it for it in self.asked if not it.startswith((self.origin, f"blob:{self.origin}", "data:"))]
        assert others == [], f"requests to other places: {others}"

    def keeps_nothing(self):
        """Neither cookies nor any storage."""
        found = self.run_module("""
            done({cookies: document.cookie, local: localStorage.length, session: sessionStorage.length,
                  databases: (await indexedDB.databases()).length, caches: (await caches.keys()).length,
                  workers: (await navigator.serviceWorker.getRegistrations()).length});""")
        assert found == {"cookies": "", "local": 0, "session": 0, "databases": 0, "caches": 0, "workers": 0}, found
        assert self.driver.get_cookies() == []

    def close(self):
        self.driver.quit()


TAB, ENTER, SPACE = Keys.TAB, Keys.ENTER, Keys.SPACE
