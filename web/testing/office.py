"""Recipients and the custodian: the list, one report with all that can be done to it, and the way to an identity."""
import os

from testing.browser import until
from testing.pages import check_view
from testing.reporter import PICTURE, WHAT, long_day

MAY_ALL = (404, 404, 404, 404)


def log_in(browser, tenant, user, password, probes=()):
    """Logs in. A recipient's rights are asked for with four requests, each of which is refused in one way or the other."""
    browser.open(f"/office.html?tenant={tenant}")
    until(lambda: browser.heading().startswith("Office: "), "the login")
    browser.type("Name of the user", user)
    browser.type("Password", password)
    browser.expect(*probes)
    browser.press("Log in")


def log_out(browser):
    browser.press("Log out")
    browser.sees("You are logged out.")


def wrong_login(browser):
    browser.open("/office.html?tenant=1")
    browser.at("Office: Harbour City")
    browser.press("Log in")
    browser.sees("Please answer this.")
    check_view(browser, "login")
    browser.expect(401)
    browser.type("Name of the user", "recipient")
    browser.type("Password", "wrong")
    browser.press("Log in")
    browser.sees("No user or report is known by this.")
    assert browser.run("return document.querySelector('input').value") == "recipient"


def inbox(browser, machine, session, number):
    """What is due first stands first; what is over is marked. All as the host tells it."""
    browser.at("Reports")
    due = machine.ask("GET", "/t/1/due", session=session).body
    cards = browser.run("return [...document.querySelectorAll('main .cards > li')].map((it) => [it.innerText, it.className])")
    listed = [int(text.split("Report ")[1].split()[0]) for text, _ in cards]
    firsts = list(dict.fromkeys(it["number"] for it in due["due"]))
    assert listed[: len(firsts)] == firsts and listed[0] == 1 and number in listed, (listed, firsts)
    for text, look in cards:
        mine = [it for it in due["due"] if f"Report {it['number']} " in text.replace("\n", " ")]
        assert ("over" in look) == any(it["over"] for it in mine), text
        assert all(long_day(it["day"]) in text for it in mine), text
    assert any("over" in look for _, look in cards)
    browser.sees(f"Today is {long_day(due['today'])}.")
    check_view(browser, "inbox")


def read_report(browser, machine, session, number):
    """The answers by their questions, and the file byte for byte."""
    browser.press(f"Report {number}")
    browser.at(f"Report {number}")
    told = machine.ask("GET", f"/t/1/reports/{number}", session=session).body
    shown = browser.run("return [...document.querySelectorAll('main dt')].map((it) => [it.textContent, it.nextSibling.textContent])")
    shown = {name: value for name, value in shown}
    assert shown[WHAT] == told["answers"]["what"] and shown["Status"] == "new" and shown["Acknowledge until"] == long_day(told["ack_due"])
    assert shown["Feedback until"] == long_day(told["feedback_due"]) and shown["Will be deleted"] == long_day(told["expires"])
    browser.sees("There are more invoices.", "sealed")
    browser.sees_not("Eve Adams", "eve@example.org")
    browser.press("Save file")
    path = f"{browser.downloads}/invoice.png"
    until(lambda: os.path.exists(path), "the saved file")
    with open(path, "rb") as it:
        assert it.read() == PICTURE
    browser.press("Show picture")
    until(lambda: browser.run("return document.querySelector('img.preview')?.naturalWidth") == 1, "the picture")
    check_view(browser, "report")
    assert not browser.offers("Delete the report…"), "a right is offered that the user lacks"


def work(browser, machine, session, number):
    """Acknowledgement, comments, feedback, label, extension and status, each as the host then has it."""
    def told():
        return machine.ask("GET", f"/t/1/reports/{number}", session=session).body

    browser.press("Acknowledge receipt")
    browser.sees("receipt acknowledged")
    until(lambda: told()["acknowledged"], "the acknowledgement")
    assert not browser.offers("Acknowledge receipt"), "an act is offered that was done"
    browser.type("Your message", "Who signed them?")
    browser.press("Send message")
    browser.sees("Who signed them?")
    browser.type("Your message", "Ask the treasurer first.")
    browser.tick("Internal: the reporter does not see it")
    browser.press("Send message")
    browser.sees("Ask the treasurer first.")
    assert "internal" in browser.part("Ask the treasurer first.").text
    browser.press("Give feedback…")
    browser.type("Feedback to the reporter", "The invoices are being audited.")
    browser.press("Send feedback")
    browser.sees("feedback was given")
    browser.press("Change the label…")
    browser.type("Label", "bridge")
    browser.press("Save")
    browser.sees("bridge")
    browser.press("More time for feedback…")
    browser.type("Why feedback needs six months", "Witnesses are abroad.")
    browser.expect(409)
    browser.press("Extend to six months")
    browser.sees("Only an external channel may take more time")
    browser.press("Set in progress")
    until(lambda: not browser.offers("Set in progress"), "the report in progress")
    now = told()
    assert (now["label"], now["status"], now["feedback_given"]) == ("bridge", "opened", True), now
    assert [it["internal"] for it in now["dialogue"]] == [False, False, False, True, False], now["dialogue"]
    assert not browser.offers("More time for feedback…"), "an act is offered that the host refused for good"


def ask_identity(browser):
    browser.press("Ask for the identity…")
    browser.type("Why you need the identity", "The court wants a witness.")
    browser.press("Ask the custodian")
    browser.sees("waiting")
    browser.press("Ask for the identity…")
    browser.type("Why you need the identity", "Once more.")
    browser.expect(409)
    browser.press("Ask the custodian")
    browser.sees("You asked already. Request 1 waits for the custodian.")
    check_view(browser, "identity-asked")


def withheld_grant(browser, passwords, number):
    """The custodian grants, and withholds the notice for a reason."""
    log_in(browser, 1, "custodian", passwords["custodian"])
    browser.at("Requests for identities").sees(f"Request 1 on report {number}", "The court wants a witness.")
    browser.sees_not("Eve Adams", "Ada Lund")
    browser.press("Grant…")
    browser.press("Grant")
    browser.sees("Please answer this.")
    browser.type("Why it is granted", "A court order.")
    browser.tick("Withhold the notice from the reporter")
    browser.type("Why the notice is withheld", "The accused could be warned.")
    check_view(browser, "custody")
    browser.press("Grant")
    browser.sees("granted")
    log_out(browser)


def open_report(browser, passwords, number, user="recipient", probes=(403, 404, 404, 404)):
    log_in(browser, 1, user, passwords[user], probes)
    browser.at("Reports")
    browser.press(f"Report {number}")
    browser.at(f"Report {number}")


def read_identity(browser, machine, session, number):
    """What is read is what the host tells under the grant."""
    browser.sees("A grant is in force for you.")
    browser.press("Read the identity")
    browser.at(f"Identity of report {number}")
    told = machine.ask("GET", f"/t/1/reports/{number}/identity", session=session).body["answers"]
    browser.sees(*told.values())
    check_view(browser, "identity")
    browser.driver.back()
    browser.at(f"Report {number}")


def revoked(browser, machine, passwords, number):
    """After a revocation nothing is open; a request that is denied opens nothing."""
    log_in(browser, 1, "custodian", passwords["custodian"])
    browser.at("Requests for identities")
    card = browser.part(f"Request 1 on report {number}")
    browser.press("Revoke…", scope=card)
    browser.type("Why it is revoked", "It was read.")
    browser.press("Revoke")
    browser.sees("revoked")
    log_out(browser)
    open_report(browser, passwords, number)
    browser.sees("sealed", "revoked")
    assert not browser.offers("Read the identity")
    browser.press("Ask for the identity…")
    browser.type("Why you need the identity", "Again.")
    browser.press("Ask the custodian")
    browser.sees("Request 2")
    log_out(browser)
    log_in(browser, 1, "custodian", passwords["custodian"])
    browser.at("Requests for identities")
    browser.press("Deny…")
    browser.type("Why it is denied", "Once was enough.")
    browser.press("Deny")
    browser.sees("denied")
    log_out(browser)
    assert machine.ask("GET", f"/t/1/reports/{number}/identity", session=machine.login(1, user="recipient", password=passwords["recipient"])).status == 404


def notice(browser, machine, passwords, digits, number):
    """A grant with notice is in force days later, and the reporter reads of it; a withheld one is not told."""
    session = machine.login(1, user="deputy", password=passwords["deputy"])
    assert machine.ask("POST", f"/t/1/reports/{number}/access", {"reason": "For the file."}, session).status == 201
    log_in(browser, 1, "custodian", passwords["custodian"])
    browser.at("Requests for identities")
    browser.press("Grant…")
    browser.type("Why it is granted", "The auditors need it.")
    browser.press("Grant")
    browser.sees("In force from")
    log_out(browser)
    assert machine.ask("GET", f"/t/1/reports/{number}", session=session).body["identity"] == "sealed"
    browser.open("/?tenant=1")
    browser.at("Harbour City")
    browser.type("Your receipt", digits)
    browser.press("Open my report")
    browser.at(f"Your report {number}").sees("notice: the identity is opened", "The auditors need it.", "Who signed them?", "The invoices are being audited.", "in progress")
    browser.sees_not("A court order.", "The accused could be warned.", "Ask the treasurer first.")
    told = machine.ask("GET", "/t/1/report", session=machine.login(1, receipt=digits)).body
    shown = browser.run("return [...document.querySelectorAll('main .remark')].map((it) => it.textContent)")
    assert shown == [it["text"] for it in told["dialogue"] if it["text"]], (shown, told["dialogue"])
    check_view(browser, "own-report-notice")
    browser.press("Log out")
    browser.sees("You are logged out.")


def check_recipient(machine, browser, passwords, digits, number):
    wrong_login(browser)
    session = machine.login(1, user="recipient", password=passwords["recipient"])
    log_in(browser, 1, "recipient", passwords["recipient"], (403, 404, 404, 404))
    inbox(browser, machine, session, number)
    read_report(browser, machine, session, number)
    work(browser, machine, session, number)
    ask_identity(browser)
    log_out(browser)
    withheld_grant(browser, passwords, number)
    open_report(browser, passwords, number)
    read_identity(browser, machine, session, number)
    log_out(browser)
    open_report(browser, passwords, 2)
    read_identity(browser, machine, session, 2)
    log_out(browser)
    revoked(browser, machine, passwords, number)
    notice(browser, machine, passwords, digits, number)
    browser.keeps_nothing()
    browser.is_quiet()
