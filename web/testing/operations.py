"""What an operator copies: the unit, nginx's site and the installation."""
import base64
import os
import re
import shutil
import subprocess

from testing.machine import ROOT, TEMPORARY

DEPLOY = f"{ROOT}/deploy"
POLICY = ("default-src 'none'; script-src 'self'; style-src 'self'; connect-src 'self'; img-src 'self' blob:; base-uri 'none'; "
          "form-action 'none'; frame-ancestors 'none'")
EXPOSURE = 13  # tenths, of which systemd-analyze calls up to 20 "OK"


def run(*words, **more):
    return subprocess.run(words, capture_output=True, text=True, **more)


def check_unit(machine):
    """The units are right, the host's is hardened, and neither of the pages' promises of it is left out."""
    if not shutil.which("systemd-analyze"):
        return print("web/test: systemd-analyze is not on this machine: the unit was not checked")
    room = f"{machine.room}/units"
    os.makedirs(room, exist_ok=True)
    for name in ("whistle.service", "whistle-health.service", "whistle-health.timer", "whistle-erase.service", "whistle-erase.timer"):
        with open(f"{DEPLOY}/{name}") as it:
            text = it.read().replace("/usr/local/", f"{machine.there}/usr/local/")
        with open(f"{room}/{name}", "w") as it:
            it.write(text)
    told = run("systemd-analyze", "verify", "--man=no", f"{room}/whistle.service", f"{room}/whistle-health.timer", f"{room}/whistle-erase.timer")
    mine = [line for line in told.stderr.splitlines() if "whistle" in line]
    assert told.returncode == 0 and mine == [], told.stderr
    told = run("systemd-analyze", "security", "--no-pager", "--offline=yes", f"--threshold={EXPOSURE}", f"{room}/whistle.service")
    assert told.returncode == 0, told.stdout[-400:]


def pass_large_file(machine):
    """The largest file goes through nginx, to the host and back."""
    file = {"name": "large", "data": base64.b64encode(bytes(150_000)).decode()}
    reply = machine.ask("POST", "/t/2/reports", {"context": 1, "answers": {"t": "ok", "f": file}})
    assert reply.status == 201, reply.text
    assert machine.ask("GET", "/t/2/report", session=machine.login(2, receipt=reply.body["receipt"])).body["answers"]["f"] == file


def check_site(machine):
    """Each page and reply has the policy, and nothing is written down of who asks or of what is sent."""
    pass_large_file(machine)
    for path in ("/", "/office.html", "/style.css", "/scripts/reporter.js", "/t/1", "/health", "/nothing"):
        reply = machine.ask("GET", path)
        assert reply.headers["Content-Security-Policy"] == POLICY, path
        assert reply.headers["Referrer-Policy"] == "no-referrer" and reply.headers["X-Content-Type-Options"] == "nosniff", path
        assert reply.headers.get_all("Cache-Control") == ["no-store"] and reply.headers["Strict-Transport-Security"], path
        assert reply.headers["Set-Cookie"] is None, path
    assert machine.ask("GET", "/scripts/reporter.js").headers["Content-Type"] == "application/javascript; charset=utf-8"
    assert machine.ask("POST", "/", {}).status == 403 and machine.ask("GET", "/testing/machine.py").status == 404
    assert machine.ask("POST", "/t/1/reports", {"x": "x" * 262_144}).status == 413
    with open(f"{machine.room}/nginx/error.log") as it:
        assert "127.0.0.1" not in it.read(), "an address was written down"
    for kind in TEMPORARY:
        assert os.listdir(f"{machine.room}/nginx/{kind}") == [], f"a request was written to {kind}"


def tree(folder):
    """Each file below a folder, with its content and who may read it."""
    found = {}
    for at, _, names in os.walk(folder):
        for name in names:
            path = f"{at}/{name}"
            with open(path, "rb") as it:
                found[os.path.relpath(path, folder)] = (oct(os.lstat(path).st_mode), it.read())
    return found


def write(path, text):
    with open(path, "wb") as it:
        it.write(text)


def check_edits(machine, program):
    """An upgrade leaves what was edited, with the new one beside it, and puts the new one in the place of what was not."""
    site, unit = "etc/nginx/sites-available/whistle", "etc/systemd/system/whistle.service"
    once = tree(machine.there)
    write(f"{machine.there}/{site}", b"edited")
    for path in (unit, "etc/whistle/installed/whistle.service"):
        write(f"{machine.there}/{path}", b"as an older version had it")
    said = machine.install(program)
    assert f"{site} is not as the last run left it" in said and unit not in said, said
    now = tree(machine.there)
    assert now[f"{site}.new"] == once[site] and now[site][1] == b"edited", "an edited site does not stay"
    assert now[unit] == once[unit] and f"{unit}.new" not in now, "a unit that nobody edited stays as it was"


def check_installation(machine, program):
    """The installation can be run twice: the second run changes nothing, and each draws passwords of its own for a new folder."""
    first = machine.there
    machine.there = f"{machine.room}/second"
    said = machine.install(program)
    assert "Then run this again to start" in said, said
    once = tree(machine.there)
    said = machine.install(program)
    assert "Then run" not in said and tree(machine.there) == once, "a second run changes what stands"
    setup = once["etc/whistle/setup.toml"]
    assert setup[0] == "0o100640" and b'"REPLACE' not in setup[1], "the setup is not its own"
    assert once["etc/ssl/whistle/privkey.pem"][0] == "0o100600"
    with open(f"{first}/etc/whistle/setup.toml", "rb") as it:
        assert re.search(rb'salt = "(.*)"', it.read()).group(1) not in setup[1]
    pages = {path for path in once if path.startswith("usr/share/whistle/web/")}
    assert all(re.search(r"\.(html|css|js|svg)$", path) for path in pages), pages
    check_edits(machine, program)
    machine.there = first
    assert run("sh", f"{DEPLOY}/install.sh", "bad name", program, env={**os.environ, "DESTDIR": machine.there}).returncode == 2


def check_texts(browser):
    """Both languages have the same texts, with the same values in them."""
    found = browser.run_module("""
        const [en, de] = await Promise.all(["en", "de"].map(async (tag) => (await import(`/texts/${tag}.js`)).default));
        const values = (text) => [...text.matchAll(/\\{\\w+\\}/g)].map(String).sort().join();
        done([...new Set([...Object.keys(en), ...Object.keys(de)])].filter((key) => !(key in en) || !(key in de) || values(en[key]) !== values(de[key])));""")
    assert found == [], f"texts that differ: {found}"


def sources():
    for at, _, names in os.walk(f"{ROOT}/web/scripts"):
        for name in names:
            with open(f"{at}/{name}") as it:
                yield it.read()


def check_used_texts(browser):
    """Each text is used, and each that is asked for is there."""
    code = "\n".join(sources())
    keys = set(browser.run_module("done(Object.keys((await import('/texts/en.js')).default))"))
    asked = set(re.findall(r"say\(\"(\w+)\"", code))
    assert asked <= keys, f"texts that are not there: {asked - keys}"
    words = set(re.findall(r"[\"`](\w+)[\"`]", code))
    stems = tuple(re.findall(r"`(\w+_)\$\{", code)) + ("grant", "deny", "revoke")
    unused = {key for key in keys if key not in words and not key.startswith(stems)} - {"language"}
    assert unused == set(), f"texts that nothing uses: {unused}"


def check_operations(machine, browser, program):
    check_unit(machine)
    check_site(machine)
    check_installation(machine, program)
    browser.open("/")
    browser.at("Harbour City")
    check_texts(browser)
    check_used_texts(browser)
    browser.is_quiet()
