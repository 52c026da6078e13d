"""An administrator's changes: settings, users, channels, and a questionnaire with its preview; each as the host then has it."""
from testing.browser import until
from testing.office import log_in, log_out
from testing.pages import check_view


def settings(browser, told):
    browser.at("Settings").sees("120 minutes east of UTC")
    check_view(browser, "settings")
    browser.type("Days of notice", "31")
    browser.press("Save")
    browser.sees("Please write a whole number from 0 to 30.")
    browser.type("Days of notice", "9")
    browser.type("Name of the organisation", "Dock Works & Sons")
    browser.press("Save")
    until(lambda: told()["settings"]["notice_days"] == 9 and told()["settings"]["name"] == "Dock Works & Sons", "the settings at the host")


def users(browser, machine, told):
    browser.press("Users")
    browser.at("Users").sees("1: rita (recipient)")
    browser.press("New user")
    browser.at("New user 4")
    browser.press("Save")
    browser.sees("Please answer this.")
    browser.type("Name of the user", "rita")
    browser.type("Password", "new-pass")
    browser.tick("share reports with others")
    browser.expect(409)
    browser.press("Save")
    browser.sees("User 1 has this name.")
    assert browser.focused() == "Name of the user", browser.focused()
    browser.type("Name of the user", "nils")
    check_view(browser, "user")
    browser.press("Save")
    browser.at("Users").sees("4: nils (recipient)")
    assert [it for it in told()["users"] if it["id"] == 4] == [{"enabled": True, "id": 4, "may": ["share"], "name": "nils", "role": "recipient"}]
    browser.press("4: nils (recipient)")
    browser.at("User 4")
    browser.choose("Role", "custodian")
    browser.expect(409)
    browser.press("Save")
    browser.sees("The role of a user stays: recipient.")
    assert browser.focused() == "Role", browser.focused()
    browser.choose("Role", "recipient")
    browser.tick("May log in")
    browser.press("Save")
    browser.at("Users").sees("4: nils (recipient, disabled)")
    assert machine.ask("POST", "/t/2/sessions", {"user": "nils", "password": "new-pass"}).status == 401


def contexts(browser, machine):
    browser.press("Channels")
    browser.at("Channels")
    browser.press("New channel")
    browser.at("New channel 3")
    browser.type("Name of the channel", "Cranes")
    browser.press("Save")
    browser.sees("Please answer this.")
    browser.tick("1: rita")
    browser.type("Days until a report is deleted", "90")
    check_view(browser, "channel")
    browser.press("Save")
    browser.at("Channels").sees("3: Cranes")
    assert {"id": 3, "name": "Cranes"} in machine.ask("GET", "/t/2").body["contexts"]
    browser.press("3: Cranes")
    browser.at("Channel 3")
    browser.tick("Open for reports")
    browser.press("Save")
    browser.at("Channels").sees("3: Cranes (closed)")
    assert {"id": 3, "name": "Cranes"} not in machine.ask("GET", "/t/2").body["contexts"]


def field(browser, place):
    """The box of the field that stands at a place of the questionnaire, counted from 1, opened."""
    box = until(lambda: browser.run("return [...document.querySelectorAll('details')][arguments[0] - 1]", place), f"field {place}")
    browser.run("arguments[0].open = true", box)
    return box


def choose_in(browser, box, label, option):
    browser.run("""const [select, words] = arguments; select.value = [...select.options].find((it) => it.textContent === words).value;
        select.dispatchEvent(new Event("change", {bubbles: true}))""", browser.find("control", label, box), option)


def questions(browser):
    """A question with answers to choose from, and one that depends on it."""
    browser.press("Add a question")
    box = field(browser, 2)
    browser.type("Short name", "Where", box)
    browser.type("Question", "Where is it?", box)
    choose_in(browser, box, "Kind of answer", "one of several")
    box = field(browser, 2)
    browser.type("Answers to choose from", "quay: On the quay\nship: On a ship", box)
    browser.press("Save as a new version")
    browser.sees("Please use 1 to 32 small letters a to z, digits or _.")
    browser.type("Short name", "what", box)
    browser.expect(422)
    browser.press("Save as a new version")
    browser.sees("This short name is there twice.")
    assert "This short name is there twice." in field(browser, 2).text
    check_view(browser, "questionnaire-editor")
    browser.type("Short name", "where", field(browser, 2))
    browser.press("Add a question")
    box = field(browser, 3)
    browser.type("Short name", "ship", box)
    browser.type("Question", "Which ship?", box)
    choose_in(browser, box, "When it is asked", "with any of these answers")
    box = field(browser, 3)
    choose_in(browser, box, "Answer", "Where is it?: On a ship")


def preview(browser):
    browser.press("Preview")
    browser.sees("On the quay")
    shown = browser.part("On the quay")
    assert browser.run("return [...document.querySelectorAll('[data-field=ship]')].map((it) => it.hidden)") == [True]
    browser.tick("On a ship", shown)
    until(lambda: browser.run("return [...document.querySelectorAll('[data-field=ship]')].map((it) => it.hidden)") == [False], "the question that depends")
    check_view(browser, "questionnaire-preview", keys=False)


def faults(browser):
    """What the host refuses stands at the question that it names."""
    for change, words in (
        (lambda: browser.press("Move up", scope=field(browser, 3)), "depends on a question that does not stand before it"),
        (lambda: browser.press("Move down", scope=field(browser, 2)), None),
        (lambda: browser.tick("Asks who the reporter is", field(browser, 2)), "may not depend on one about the identity"),
        (lambda: browser.tick("Asks who the reporter is", field(browser, 2)), None),
        (lambda: browser.type("Answers to choose from", "quay: On the quay", field(browser, 2)), "Answers to choose from are missing"),
        (lambda: browser.type("Answers to choose from", "quay: On the quay\nship: On a ship", field(browser, 2)), None),
    ):
        change()
        if words:
            browser.expect(422)
            browser.press("Save as a new version")
            browser.sees(words)


def forms(browser, machine, told):
    versions = {it["id"]: it["versions"] for it in told()["forms"]}
    browser.press("Questionnaires")
    browser.at("Questionnaires")
    browser.press(f"Questionnaire 2, version {versions[2]}")
    browser.at("Questionnaire 2")
    questions(browser)
    preview(browser)
    faults(browser)
    browser.press("Save as a new version")
    browser.sees(f"Version {versions[2] + 1} is saved.")
    found = machine.ask("GET", "/t/2/contexts/2").body
    assert found["version"] == versions[2] + 1
    plain = {"required": False, "identity": False}
    assert found["form"]["steps"][0]["fields"][1:] == [
        {**plain, "id": "where", "label": "Where is it?", "kind": "choice", "options": [{"id": "quay", "label": "On the quay"}, {"id": "ship", "label": "On a ship"}]},
        {**plain, "id": "ship", "label": "Which ship?", "kind": "text", "max": 4096, "show": {"any": [{"field": "where", "option": "ship"}]}}], found
    points(browser, machine)


def points(browser, machine):
    """The questionnaire with a scored trigger is read, shown and saved as it is."""
    before = machine.ask("GET", "/t/2/contexts/1").body
    browser.driver.back()
    browser.at("Questionnaires")
    browser.press("Questionnaire 1, version 1")
    browser.at("Questionnaire 1")
    browser.press("Save as a new version")
    browser.sees("Version 2 is saved.")
    after = machine.ask("GET", "/t/2/contexts/1").body
    assert after["version"] == 2 and after["form"] == before["form"], "the editor changes what nobody changed"


def check_admin(machine, browser):
    session = machine.login(2, user="alma", password="alma-pass")

    def told():
        return machine.ask("GET", "/t/2/admin", session=session).body

    log_in(browser, 2, "alma", "alma-pass")
    settings(browser, told)
    users(browser, machine, told)
    contexts(browser, machine)
    forms(browser, machine, told)
    log_out(browser)
    browser.is_quiet()
