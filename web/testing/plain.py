"""A browser without JavaScript: the notice, and the report that it tells how to send."""
import json
import re
import subprocess

from testing.browser import Browser
from testing.pages import CHECKS


def check_plain(machine):
    browser = Browser(machine.room, machine.origin, javascript=False)
    try:
        for path, words in (("/", "Nothing was sent"), ("/office.html", "Recipients, custodians")):
            browser.open(path)
            browser.at("This page needs JavaScript").sees(words)
            assert browser.run("return document.querySelector('main').querySelectorAll('input, button').length") == 0
            browser.width(320)
            wide = [it for it in browser.run(CHECKS, True)]
            assert wide == [], wide
            browser.width(1280)
        browser.open("/")
        told = browser.run("return document.querySelector('pre').textContent")
        browser.is_quiet()
    finally:
        browser.close()
    send_as_told(machine, told)


def send_as_told(machine, told):
    """The line of the notice, with this machine's address and without the way over Tor, sends a report and shows its receipt. It answers what is required."""
    body = re.search(r"-d '(.*)' https://ADDRESS-OF-THIS-PAGE(/t/1/reports)", told)
    questions = machine.ask("GET", "/t/1/contexts/1").body["form"]["steps"]
    required = {field["id"] for step in questions for field in step["fields"] if field["required"] and not field["identity"] and "show" not in field}
    assert set(json.loads(body.group(1))["answers"]) == required
    words = ["curl", "--silent", "--insecure", "-d", body.group(1), machine.origin + body.group(2)]
    reply = subprocess.run(words, check=True, capture_output=True, text=True).stdout
    receipt = re.search(r'"receipt":"([0-9]{16})"', reply).group(1)
    assert machine.login(1, receipt=receipt)
