"""What can go wrong on the way, each said in words, with all that was typed still there."""
from testing.browser import until
from testing.office import log_in, log_out
from testing.pages import check_view
from testing.relay import Relay

WORDS = "The lamp is out."


def to_review(browser, tenant=3, context="Everything", name="Small Office"):
    """A report that is ready to be sent."""
    browser.open(f"/?tenant={tenant}")
    browser.at(name)
    browser.press(context)
    browser.at(context)
    browser.press("Start")
    browser.at("Short")
    browser.type("What is wrong", WORDS)
    browser.press("Next")
    browser.at("Check before you send").sees(WORDS)


def refused(browser, status, words):
    """Sending is refused in these words, and what was typed is there."""
    browser.expect(status)
    browser.press("Send report")
    browser.sees(words, WORDS)
    assert browser.heading() == "Check before you send"


def relayed(machine, browser):
    """A taken receipt is drawn anew unseen; want of memory and spent numbers are said; a long wait is said."""
    relay = Relay(machine.host_port)
    machine.restart_nginx(to_port=relay.port)
    to_review(browser)
    relay.answers = [("POST", 507, '{"code":"no_memory"}'), ("POST", 429, '{"code":"numbers_spent","kept":4294967295}'), ("POST", 429, '{"code":"turns_spent","kept":1000000000000000}')]
    refused(browser, 507, "The host has no room at the moment.")
    refused(browser, 429, "This channel can take no more reports.")
    refused(browser, 429, "This host can answer no more requests.")
    check_view(browser, "refused")
    relay.answers = [("POST", 409, '{"code":"receipt_taken","kept":null}')] * 3
    relay.delay = 2.5
    browser.expect(409, 409, 409)
    browser.find("button", "Send report").click()
    browser.sees("Still waiting for the host…")
    browser.at("Your receipt")
    relay.delay = 0
    assert [it[:2] for it in relay.handed_on].count(("POST", "/t/3/reports")) == 1, relay.handed_on
    session_goes_with_page(browser, relay)
    browser.is_quiet()
    machine.restart_nginx()
    relay.close()


def session_goes_with_page(browser, relay):
    """A page that is left ends its session at the host."""
    browser.press("Open my report now")
    browser.sees("What you reported")
    assert ("DELETE", "/t/3/sessions") not in [it[:2] for it in relay.handed_on]
    browser.open("/?tenant=3")
    until(lambda: ("DELETE", "/t/3/sessions") in [it[:2] for it in relay.handed_on], "the end of the session")
    browser.at("Small Office")


def quota(browser):
    """The second report of a day to an organisation that takes one."""
    to_review(browser)
    refused(browser, 429, "No more reports are taken today: 1 a day.")
    browser.is_quiet()


def connection(machine, browser):
    """nginx is gone, then the host; with both back the same report is sent."""
    to_review(browser, 2, "A short word", "Dock Works")
    machine.stop_nginx()
    refused(browser, 0, "The connection was lost.")
    machine.start_nginx()
    machine.stop_host()
    refused(browser, 502, "The host cannot be reached now.")
    machine.start_host()
    machine.fill_disk()
    refused(browser, 503, "The host could not keep it.")
    machine.stop_host()
    machine.start_host()
    browser.press("Send report")
    browser.at("Your receipt")
    browser.open("/?tenant=9")
    browser.expect(404)
    browser.at("This cannot be shown now").sees("This is not there, or not for you.")
    check_view(browser, "no-such-organisation")


def changed_questionnaire(machine, browser):
    """The questionnaire changes while it is answered: the host's refusal stands at the field that it names, which has the focus."""
    admin = machine.login(2, user="alma", password="alma-pass")
    field = {"id": "what", "label": "What is wrong", "kind": "text", "required": True}

    def save(*fields):
        form = {"steps": [{"title": "Short", "fields": list(fields)}]}
        assert machine.ask("PUT", "/t/2/admin/forms/2", {"form": form}, admin).status == 200

    save(field)
    to_review(browser, 2, "A short word", "Dock Works")
    save({**field, "max": 5})
    browser.expect(422)
    browser.press("Send report")
    browser.at("Short").sees("This is too long")
    assert browser.focused() == "What is wrong", browser.focused()
    assert browser.run("return document.activeElement.value") == WORDS
    save(field)
    to_review(browser, 2, "A short word", "Dock Works")
    save(field, {**field, "id": "who", "label": "Who"})
    browser.expect(422)
    browser.press("Send report")
    browser.sees("The questionnaire has changed. Please begin again.", WORDS)
    save(field)
    browser.is_quiet()


def too_large(browser, room):
    """More than one request holds is refused before it is sent; with one file less it is sent."""
    with open(f"{room}/scan.bin", "wb") as it:
        it.write(b"x" * 140_000)
    browser.open("/?tenant=2")
    browser.at("Dock Works")
    browser.press("All kinds of things")
    browser.at("All kinds of things")
    browser.press("Start")
    browser.at("All kinds")
    browser.type("A text", "ok")
    for label in ("A file", "Another file"):
        browser.attach(label, f"{room}/scan.bin")
        until(lambda: "Chosen: scan.bin" in browser.find("control", label).find_element("xpath", "..").text, label)
    browser.press("Next")
    browser.at("Triggers")
    browser.press("Next")
    browser.at("You")
    browser.press("Next")
    browser.at("Check before you send")
    browser.press("Send report")
    browser.sees("This is too much for one message", "scan.bin")
    browser.press("Change “All kinds”")
    browser.at("All kinds")
    browser.press("Remove the file")
    for _ in range(3):
        browser.press("Next")
        until(lambda: browser.heading() != "All kinds", "the next step")
    browser.at("Check before you send")
    browser.press("Send report")
    browser.at("Your receipt")
    browser.is_quiet()


def session_over(machine, browser, passwords, number):
    """The session ends at the host while a comment is typed: after a new login it is still there."""
    log_in(browser, 1, "recipient", passwords["recipient"], (403, 404, 404, 404))
    browser.at("Reports")
    browser.press(f"Report {number}")
    browser.at(f"Report {number}")
    browser.press("Set in progress")
    until(lambda: browser.offers("Send message"), "the report in progress")
    browser.type("Your message", "Half a thought")
    admin = machine.login(1, user="admin", password=passwords["admin"])
    user = {"name": "recipient", "role": "recipient", "enabled": True, "may": ["postpone", "share", "transfer"], "password": passwords["recipient"]}
    assert machine.ask("PUT", "/t/1/admin/users/1", user, admin).status == 200
    browser.expect(401)
    browser.press("Send message")
    browser.sees("Your session has ended.")
    browser.press("Log in again")
    browser.at("Office: Harbour City").sees("Your session has ended")
    browser.type("Name of the user", "recipient")
    browser.type("Password", passwords["recipient"])
    browser.expect(403, 404, 404, 404)
    browser.press("Log in")
    browser.at("Reports")
    browser.press(f"Report {number}")
    browser.at(f"Report {number}")
    assert browser.run("return document.querySelector('textarea').value") == "Half a thought"
    lost_right(machine, browser, user, admin)


def lost_right(machine, browser, user, admin):
    """A right is taken while the page still offers it: the host's refusal is said."""
    without = {key: value for key, value in user.items() if key != "password"} | {"may": []}
    assert machine.ask("PUT", "/t/1/admin/users/1", without, admin).status == 200
    browser.expect(403)
    browser.press("Keep it longer")
    browser.sees("You have no right to do this.")
    log_out(browser)
    browser.is_quiet()


def limits(machine, browser):
    """nginx limits how often a login is tried, and the page says so."""
    machine.restart_nginx(limits=True)
    browser.open("/?tenant=1")
    browser.at("Harbour City")
    statuses = [machine.ask("POST", "/t/1/sessions", {"receipt": f"{at:016d}"}).status for at in range(14)]
    assert statuses == [401] * 11 + [429] * 3, statuses
    browser.expect(429)
    browser.type("Your receipt", "1234 1234 1234 1234")
    browser.press("Open my report")
    browser.sees("There were too many requests in a short time.")
    browser.is_quiet()
    machine.restart_nginx()


def check_failures(machine, browser, passwords, number):
    relayed(machine, browser)
    quota(browser)
    changed_questionnaire(machine, browser)
    too_large(browser, machine.room)
    session_over(machine, browser, passwords, number)
    limits(machine, browser)
    connection(machine, browser)
    browser.is_quiet()
