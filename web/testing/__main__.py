"""Runs all checks in their order. Each that passes has a line; the first that fails ends the run."""
import contextlib
import os
import signal
import sys
import tempfile
import time
import traceback

sys.dont_write_bytecode = True

from testing import admin, failures, moves, office, operations, plain, reporter, rules, setup  # noqa: E402
from testing.browser import Browser  # noqa: E402
from testing.machine import Machine  # noqa: E402
from testing.past import make_past  # noqa: E402


@contextlib.contextmanager
def check(name):
    begun = time.monotonic()
    yield
    print(f"web/test: {name} ({time.monotonic() - begun:.0f} s)", flush=True)


def run_all(machine, browser, program, passwords, old_receipt):
    with check("triggers and answers are judged as the host judges them"):
        rules.check_rules(machine, browser)
    with check("a reporter sends a report, comes back and gives an identity"):
        digits, number = reporter.check_reporter(machine, browser)
    with check("recipients work on it, and a custodian opens its identity"):
        office.check_recipient(machine, browser, passwords, digits, number)
    with check("reports are shared, kept, moved, deleted and closed, for two organisations at once"):
        moves.check_moves(machine, browser, passwords, digits, number, old_receipt)
    with check("what goes wrong is said in words, and what was typed stays"):
        failures.check_failures(machine, browser, passwords, number)
    with check("an administrator changes settings, users, channels and questionnaires"):
        admin.check_admin(machine, browser)
    with check("without JavaScript there is a notice, and the way that it names works"):
        plain.check_plain(machine)
    with check("the unit, nginx's site, the installation and the texts"):
        operations.check_operations(machine, browser, program)


def start(machine, stack):
    """Starts the host over reports of the past, nginx and the browser."""
    stack.callback(machine.close)
    passwords = setup.prepare(machine)
    old_receipt = make_past(machine, passwords)
    machine.start_host()
    machine.start_nginx()
    browser = Browser(machine.room, machine.origin)
    stack.callback(browser.close)
    return browser, passwords, old_receipt


def tell(browser):
    """What the browser shows and complains of, after a failure."""
    browser.listen()
    return f"at the view {browser.heading()!r}; the browser told {browser.complaints} {browser.seen_refusals}"


def main(program):
    with tempfile.TemporaryDirectory(prefix="whistle-web-") as room, contextlib.ExitStack() as stack:
        os.chmod(room, 0o755)
        browser = None
        try:
            machine = Machine(room, program)
            browser, passwords, old_receipt = start(machine, stack)
            run_all(machine, browser, program, passwords, old_receipt)
        except Exception:
            traceback.print_exc()
            print(f"web/test: FAILED {tell(browser) if browser else 'at the start'}", flush=True)
            return 1
    print("web/test: passed")
    return 0


signal.signal(signal.SIGTERM, lambda *_: sys.exit(1))
sys.exit(main(sys.argv[1]))
