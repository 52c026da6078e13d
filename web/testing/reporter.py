"""A reporter's whole way: a questionnaire with triggers and a file, the receipt, the return, a comment, an identity given later."""
import base64
from datetime import date

from testing.browser import ENTER, SPACE, TAB, until
from testing.pages import check_view

PICTURE = base64.b64decode("iVBORw0KGgoAAAANSUhEUgAAAAEAAAABCAYAAAAfFcSJAAAADUlEQVR42mNk+M9QDwADhgGAWjR9awAAAABJRU5ErkJggg==")
WHAT = "What happened? Tell it in your own words: who did what, where, and how you know."
AREAS = "Which areas does it concern?"
FIRST = "What has to be done at once, and by whom?"
MONEY = "How much money is at stake, in euros, as far as you know?"
CONTEXT = "Corruption, fraud and misuse of money"


def long_day(text):
    """A date as the page shows it in English."""
    day = date.fromisoformat(text)
    return f"{day:%B} {day.day}, {day.year}"


def first_view(browser):
    browser.open("/?tenant=1")
    browser.at("Harbour City")
    check_view(browser, "home")
    browser.choose("Language", "Deutsch")
    browser.sees("Etwas melden", "Zurück zu Ihrer Meldung")
    assert browser.run("return document.documentElement.lang") == "de"
    check_view(browser, "home-german")
    browser.choose("Sprache", "English")
    browser.sees("Make a report")


def first_step(browser):
    browser.press(CONTEXT)
    browser.at(CONTEXT).sees("These questions ask who you are", "Your name", "You may leave them all out")
    check_view(browser, "questionnaire-begins")
    browser.press("Start")
    browser.at("What happened").sees("Step 1 of 4")
    browser.press("Next")
    browser.sees("Please answer this.")
    assert browser.focused() == WHAT, browser.focused()
    browser.sees_not("Which other area?", MONEY)
    browser.type(WHAT, "The bridge was <b>paid</b> twice & nobody looked.")
    browser.tick("Public procurement", browser.find("control", AREAS))
    browser.tick("Something else", browser.find("control", AREAS))
    browser.sees("There is a further question below.", "Which other area? (optional)", MONEY)
    browser.type("Which other area?", "never sent")
    browser.tick("Something else", browser.find("control", AREAS))
    browser.sees_not("Which other area?")
    browser.type(MONEY, "12x")
    browser.type("When did it begin?", "2026-03-01")
    browser.choose("Does it still go on?", "Yes")
    browser.press("Next")
    browser.sees("Please write a whole number in digits")
    assert browser.focused().startswith(MONEY), browser.focused()
    check_view(browser, "questionnaire-faults")
    browser.type(MONEY, "12 000")
    browser.press("Next")


def second_step(browser, room):
    """Points of three answers together show one more question."""
    browser.at("Urgency and proof").sees_not(FIRST)
    browser.choose("Is anyone's life, health or safety in danger?", "Perhaps, later")
    browser.sees_not(FIRST)
    browser.tick("Proof may vanish soon", browser.find("control", "What shows it?"))
    browser.sees(FIRST)
    browser.press("Next")
    browser.sees("Please answer this.")
    browser.type(FIRST, "Secure the ledger.")
    for name, content in (("large.bin", b"x" * 150_001), ("invoice.png", PICTURE)):
        with open(f"{room}/{name}", "wb") as it:
            it.write(content)
    browser.attach("A document or picture", f"{room}/large.bin")
    browser.sees("This file is too large: at most 150 kB.")
    browser.attach("A document or picture", f"{room}/invoice.png")
    browser.sees("Chosen: invoice.png (1 kB)")
    check_view(browser, "questionnaire-points")
    browser.press("Next")


def third_step(browser):
    browser.at("What was done so far")
    browser.choose("Was it reported before?", "Yes, to an authority")
    browser.type("To whom and when, and what came of it?", "In May, to the audit office.")
    browser.choose("Do you fear reprisals, or have there been some?", "Yes")
    browser.press("Next")


def fourth_step(browser):
    browser.at("You and others").sees("Who you are", "These answers are kept apart from the rest.")
    browser.type("How can you be reached, beside this page?", "eve@example.org")
    browser.press("Next")
    browser.sees("Please answer this.")
    assert browser.focused() == "Your name (needed if you answer any question here)", browser.focused()
    browser.type("Your name", "Eve Adams")
    check_view(browser, "questionnaire-identity")
    browser.press("Next")


def review_and_send(browser):
    browser.at("Check before you send").sees("12,000", "March 1, 2026", "Public procurement", "invoice.png", "Eve Adams", "Nothing was sent yet.")
    browser.sees("The bridge was <b>paid</b> twice & nobody looked.")
    browser.sees_not("never sent")
    check_view(browser, "review")
    browser.press("Change “What happened”")
    browser.at("What happened")
    browser.tick("Public procurement", browser.find("control", AREAS))
    browser.driver.back()
    browser.at("Check before you send").sees("An answer is missing or wrong.")
    assert not browser.offers("Send report")
    browser.press("Go to it")
    browser.at("What happened").sees("Please answer this.")
    assert browser.focused() == "Public procurement", browser.focused()
    browser.tick("Public procurement", browser.find("control", AREAS))
    browser.driver.back()
    browser.at("Check before you send")
    browser.press("Send report")
    browser.at("Your receipt")


def receipt(browser):
    """The receipt in four groups, copied and printed; its sixteen digits."""
    groups = browser.run("return [...document.querySelectorAll('.receipt span')].map((it) => it.textContent)")
    assert len(groups) == 4 and all(len(it) == 4 and it.isdigit() for it in groups), groups
    browser.press("Copy")
    browser.sees("The receipt was copied.")
    assert browser.run_module("done(await navigator.clipboard.readText())") == "".join(groups)
    browser.press("Print")
    assert browser.run("return window.printed") is True
    browser.sees("Whoever has them can read your report", "They are the only way back")
    check_view(browser, "receipt")
    return "".join(groups)


def own_report(browser, machine, digits):
    """The page shows the reporter's view as the host tells it."""
    browser.press("Open my report now")
    session = machine.login(1, receipt=digits)
    told = machine.ask("GET", "/t/1/report", session=session).body
    assert told["answers"]["what"] == "The bridge was <b>paid</b> twice & nobody looked." and told["answers"]["amount"] == 12000
    assert "area_other" not in told["answers"] and told["identity"] == {"contact": "eve@example.org", "name": "Eve Adams"}
    assert base64.b64decode(told["answers"]["document"]["data"]) == PICTURE
    browser.at(f"Your report {told['number']}")
    browser.sees(long_day(told["received"]), long_day(told["feedback_due"]), long_day(told["expires"]), "new", "not yet", told["answers"]["what"], "Eve Adams")
    browser.press("Send message")
    browser.sees("Please answer this.")
    browser.type("Your message", "x" * 4097)
    browser.press("Send message")
    browser.sees("This is too long: 4,097 bytes of at most 4,096.")
    browser.type("Your message", "There are more invoices.")
    browser.press("Send message")
    until(lambda: machine.ask("GET", "/t/1/report", session=session).body["dialogue"], "the comment at the host")
    browser.sees("There are more invoices.", "Reporter")
    check_view(browser, "own-report")
    browser.press("Log out")
    browser.sees("You are logged out.")
    return told["number"]


def come_back(browser, digits):
    """A receipt is taken with spaces, and refused in words where it is none or nobody's."""
    browser.type("Your receipt", "1234")
    browser.press("Open my report")
    browser.sees("A receipt has 16 digits.")
    assert browser.focused() == "Your receipt"
    browser.expect(401)
    browser.type("Your receipt", "9999 9999 9999 9999")
    browser.press("Open my report")
    browser.sees("No user or report is known by this.")
    browser.type("Your receipt", " ".join(digits[at : at + 4] for at in range(0, 16, 4)))
    browser.press("Open my report")
    browser.sees("What you reported")
    browser.press("Log out")
    browser.sees("You are logged out.")


def by_keys(browser, machine):
    """A report is sent without a mouse."""
    browser.open("/?tenant=2")
    browser.at("Dock Works")

    def go_to(name):
        for _ in range(40):
            browser.keys(TAB)
            if browser.focused() == name:
                return
        raise AssertionError(f"Tab does not reach {name!r}")

    go_to("A short word")
    browser.keys(ENTER)
    browser.at("A short word").sees("No question here asks who you are.")
    go_to("Start")
    browser.keys(SPACE)
    browser.at("Short")
    go_to("What is wrong")
    browser.keys("The gate is open at night")
    go_to("Next")
    browser.keys(ENTER)
    browser.at("Check before you send")
    go_to("Send report")
    browser.keys(ENTER)
    browser.at("Your receipt")
    go_to("Finish")
    browser.keys(ENTER)
    browser.at("Dock Works")
    assert machine.ask("GET", "/t/2/admin", session=machine.login(2, user="alma", password="alma-pass")).body["last_number"] >= 1


def chain(browser):
    """A question that an answer shows goes when the question of that answer goes, and what was typed into it is not sent."""
    browser.open("/?tenant=2")
    browser.at("Dock Works")
    browser.press("All kinds of things")
    browser.at("All kinds of things")
    browser.press("Start")
    browser.at("All kinds")
    browser.type("A text", "short")
    browser.choose("A choice", "Alpha")
    browser.tick("Zed", browser.find("control", "Some"))
    browser.press("Next")
    browser.at("Triggers").sees_not("After points")
    browser.choose("With points", "Pea")
    browser.type("After points", "gone soon")
    browser.driver.back()
    browser.at("All kinds")
    browser.tick("Zed", browser.find("control", "Some"))
    browser.press("Next")
    browser.at("Triggers").sees_not("With points", "After points")
    browser.press("Next")
    browser.at("You")
    browser.press("Next")
    browser.at("Check before you send").sees_not("gone soon", "Pea")
    browser.press("Send report")
    browser.at("Your receipt")


def identity_later(browser, machine):
    """An identity is given after the report, by the questions of the report's own questionnaire; the host judges it alike."""
    reply = machine.ask("POST", "/t/2/reports", {"context": 1, "answers": {"t": "short", "c": "b"}}).body
    browser.open("/?tenant=2")
    browser.at("Dock Works")
    browser.type("Your receipt", reply["receipt"])
    browser.press("Open my report")
    browser.at(f"Your report {reply['number']}").sees("You did not say who you are.", "Beta", "A text")
    browser.press("Say who you are")
    browser.at("You").sees_not("More", "A choice")
    browser.choose("Your tie", "Outside")
    browser.sees("Under seal")
    browser.press("Next")
    browser.sees("Please answer this.")
    browser.type("Your name", "Zoë")
    browser.type("Under seal", "only here")
    check_view(browser, "identity-later")
    browser.press("Next")
    browser.at("Check what you say about yourself").sees("Zoë", "Outside")
    browser.press("Send")
    browser.at(f"Your report {reply['number']}").sees("You said this about yourself:", "Zoë", "only here")
    told = machine.ask("GET", "/t/2/report", session=machine.login(2, receipt=reply["receipt"])).body
    assert told["identity"] == {"name": "Zoë", "seal": "only here", "tie": "j"}, told
    browser.press("Log out")
    browser.sees("You are logged out.")


def check_reporter(machine, browser):
    """All of a reporter's way; the receipt and the number of the report."""
    first_view(browser)
    first_step(browser)
    second_step(browser, machine.room)
    third_step(browser)
    fourth_step(browser)
    review_and_send(browser)
    digits = receipt(browser)
    number = own_report(browser, machine, digits)
    come_back(browser, digits)
    by_keys(browser, machine)
    chain(browser)
    identity_later(browser, machine)
    browser.is_quiet()
    browser.keeps_nothing()
    return digits, number
