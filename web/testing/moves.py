"""Sharing, postponing, moving and deleting; two organisations at once; an external channel's extension."""
from datetime import date, timedelta

from testing.browser import until
from testing.office import log_in, log_out, open_report
from testing.pages import check_view
from testing.reporter import CONTEXT, long_day


def readers(browser, machine, passwords, session, number):
    def told():
        return machine.ask("GET", f"/t/1/reports/{number}", session=session).body["readers"]

    open_report(browser, passwords, number)
    assert told() == [1, 2]
    browser.press("Share with a further reader…")
    browser.type("Number of the recipient", "0")
    browser.press("Share")
    browser.sees("Please write a whole number from 1 to 256.")
    browser.expect(409, 404)
    browser.type("Number of the recipient", "2")
    browser.press("Share")
    browser.sees("This is so already: 2.")
    browser.type("Number of the recipient", "99")
    browser.press("Share")
    browser.sees("This is not there, or not for you.")
    browser.press("Take user 2 away")
    until(lambda: told() == [1], "one reader")
    until(lambda: not browser.offers("Take user 1 away"), "no way to take the last reader away")
    browser.press("Share with a further reader…")
    browser.type("Number of the recipient", "2")
    browser.press("Share")
    until(lambda: told() == [1, 2], "two readers")
    browser.sees("User 2")


def postpone(browser, machine, session):
    """The report of 100 days ago is kept longer: for the days of its channel from today on."""
    browser.driver.back()
    browser.at("Reports")
    browser.press("Report 1")
    browser.at("Report 1")
    browser.press("Keep it longer")
    today = date.fromisoformat(machine.ask("GET", "/t/1/due", session=session).body["today"])
    browser.sees(long_day((today + timedelta(days=365)).isoformat()))
    assert machine.ask("GET", "/t/1/reports/1", session=session).body["expires"] == (today + timedelta(days=365)).isoformat()


def transfer(browser, machine, session):
    """The report moves to a channel that this recipient does not work on, and is gone from the list."""
    browser.press("Move to another channel…")
    browser.choose("To channel", "Safety, health and environment")
    check_view(browser, "transfer")
    browser.expect(404)
    browser.press("Move the report")
    browser.at("Reports").sees_not("Report 1")
    assert machine.ask("GET", "/t/1/reports/1", session=session).status == 404
    log_out(browser)


def delete(browser, machine, passwords, receipt):
    """Deleting asks twice; then nothing of the report is there for anyone."""
    open_report(browser, passwords, 1, "deputy", (404, 404, 404, 404))
    browser.sees("Safety, health and environment")
    browser.press("Delete the report…")
    browser.sees("Delete report 1 with its answers, its dialogue and the identity?")
    check_view(browser, "delete")
    browser.press("Delete the report…", "Yes, go on") if not browser.offers("Yes, go on") else browser.press("Yes, go on")
    browser.type("To delete it for good, write its number: 1", "2")
    browser.press("Delete for good")
    browser.sees("Please write a whole number from 1 to 1.")
    session = machine.login(1, user="deputy", password=passwords["deputy"])
    assert machine.ask("GET", "/t/1/reports/1", session=session).status == 200
    browser.type("To delete it for good, write its number: 1", "1")
    browser.press("Delete for good")
    browser.at("Reports").sees_not("Report 1")
    assert machine.ask("GET", "/t/1/reports/1", session=session).status == 404
    log_out(browser)
    browser.open("/?tenant=1")
    browser.at("Harbour City")
    browser.expect(401)
    browser.type("Your receipt", receipt)
    browser.press("Open my report")
    browser.sees("No user or report is known by this.")


def close_report(browser, passwords, digits, number):
    """A closed report offers nothing that it refuses, to neither side."""
    open_report(browser, passwords, number)
    browser.press("Close the report")
    browser.sees("This report is closed.")
    for words in ("Send message", "Give feedback…", "Move to another channel…", "Close the report", "More time for feedback…"):
        assert not browser.offers(words), f"{words} is offered of a closed report"
    check_view(browser, "report-closed")
    log_out(browser)
    browser.open("/?tenant=1")
    browser.at("Harbour City")
    browser.type("Your receipt", digits)
    browser.press("Open my report")
    browser.at(f"Your report {number}").sees("Your report is closed.")
    assert not browser.offers("Send message") and not browser.offers("Replace what you said")
    browser.press("Log out")
    browser.sees("You are logged out.")


def two_at_once(browser, machine):
    """Two organisations in two windows: each session stays in its own, and neither shows anything of the other."""
    made = machine.ask("POST", "/t/2/reports", {"context": 2, "answers": {"what": "The crane leans."}}).body
    first = browser.driver.current_window_handle
    browser.open("/?tenant=1")
    browser.at("Harbour City").sees(CONTEXT)
    browser.driver.switch_to.new_window("tab")
    browser.width(1280)
    log_in(browser, 2, "rita", "rita-pass", (403, 403, 403, 403))
    browser.at("Reports")
    browser.press(f"Report {made['number']}")
    browser.at(f"Report {made['number']}").sees("The crane leans.")
    for words in ("Share with a further reader…", "Move to another channel…", "Keep it longer", "Delete the report…"):
        assert not browser.offers(words), f"{words} is offered without the right"
    browser.press("More time for feedback…")
    browser.type("Why feedback needs six months", "The expert is abroad.")
    browser.press("Extend to six months")
    browser.sees("The expert is abroad.", "more time")
    assert not browser.offers("More time for feedback…")
    browser.sees_not("Harbour City")
    second = browser.driver.current_window_handle
    browser.driver.switch_to.window(first)
    browser.at("Harbour City").sees_not("The crane leans.", "Dock Works")
    browser.expect(401)
    browser.type("Your receipt", made["receipt"])
    browser.press("Open my report")
    browser.sees("No user or report is known by this.")
    browser.open("/?tenant=2")
    browser.at("Dock Works")
    browser.type("Your receipt", made["receipt"])
    browser.press("Open my report")
    browser.at(f"Your report {made['number']}").sees("The feedback needs more time", "The expert is abroad.")
    told = machine.ask("GET", "/t/2/report", session=machine.login(2, receipt=made["receipt"])).body
    browser.sees(long_day(told["feedback_due"]))
    browser.press("Log out")
    browser.sees("You are logged out.")
    browser.driver.switch_to.window(second)
    log_out(browser)
    browser.is_quiet()
    browser.driver.close()
    browser.driver.switch_to.window(first)


def check_moves(machine, browser, passwords, digits, number, old_receipt):
    session = machine.login(1, user="recipient", password=passwords["recipient"])
    readers(browser, machine, passwords, session, number)
    postpone(browser, machine, session)
    transfer(browser, machine, session)
    delete(browser, machine, passwords, old_receipt)
    close_report(browser, passwords, digits, number)
    two_at_once(browser, machine)
    browser.is_quiet()
