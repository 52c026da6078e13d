"""What each view has to meet, whatever it shows: labels, contrast, widths, keys. And a picture of it."""
import base64
import os

from testing.browser import HERE, TAB

PICTURES = f"{os.path.dirname(HERE)}/pictures"
FOCUSABLE = "a[href], button, input, select, textarea, summary, [tabindex='0']"

with open(f"{HERE}/page-checks.js") as it:
    CHECKS = it.read()

WITH_FOCUS = """
const it = document.activeElement;
if (!it || it === document.body || !document.hasFocus()) return null;
const style = getComputedStyle(it);
const group = it.type === "radio" ? it.name : "";
if (!it.dataset.place) it.dataset.place = String((window.places = (window.places ?? 0) + 1));
return {place: group || it.dataset.place, isMarked: style.outlineStyle !== "none" && parseFloat(style.outlineWidth) >= 2, what: it.outerHTML.slice(0, 120)};
"""
PLACES = """
const seen = [...document.querySelectorAll(arguments[0])].filter((it) => it.checkVisibility({visibilityProperty: true}) && it.tabIndex >= 0);
return new Set(seen.map((it) => it.type === "radio" ? it.name : it)).size;
"""


def check_keys(browser):
    """Tab reaches every control, one after another, and each shows that it has the focus."""
    count = browser.run(PLACES, FOCUSABLE)
    browser.run("document.querySelector('h1').focus(); scrollTo(0, 0); document.activeElement.blur(); getSelection().removeAllRanges()")
    reached = {}
    for _ in range(3 * count + 20):
        browser.keys(TAB)
        found = browser.run(WITH_FOCUS)
        if found:
            assert found["isMarked"], f"the focus cannot be seen at {found['what']}"
            reached[found["place"]] = found["what"]
        if len(reached) == count:
            return
    raise AssertionError(f"Tab reaches {len(reached)} of {count} controls at {browser.heading()!r}: {list(reached.values())}")


def check_view(browser, name, keys=True):
    """Judges the present view at 1,280 and 320 pixels and with letters of twice the size, and takes a picture of both widths."""
    os.makedirs(PICTURES, exist_ok=True)
    wrong = browser.run(CHECKS, False)
    assert wrong == [], f"{name}: {wrong}"
    picture(browser, f"{name}-1280")
    browser.run("document.documentElement.style.fontSize = '200%'")
    wrong = browser.run(CHECKS, True)
    browser.run("document.documentElement.style.fontSize = ''")
    assert wrong == [], f"{name} with letters of twice the size: {wrong}"
    browser.width(320)
    wrong = browser.run(CHECKS, False)
    assert wrong == [], f"{name} at 320 pixels: {wrong}"
    picture(browser, f"{name}-320")
    browser.width(1280)
    if keys:
        check_keys(browser)
    browser.is_quiet()


def picture(browser, name):
    """Takes a picture of the whole view."""
    browser.run("document.activeElement.blur(); scrollTo(0, 0)")
    width, height = browser.run("return [innerWidth, document.documentElement.scrollHeight]")
    clip = {"x": 0, "y": 0, "width": width, "height": min(height, 6000), "scale": 1}
    told = browser.driver.execute_cdp_cmd("Page.captureScreenshot", {"captureBeyondViewport": True, "clip": clip})
    with open(f"{PICTURES}/{name}.png", "wb") as it:
        it.write(base64.b64decode(told["data"]))
