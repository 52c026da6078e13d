"""Reports of the past: a script of requests with moments that are over is played over the store before the host serves it."""
import json
import time

DAY = 86_400
RECEIPT = 4242424242424242


class Past:
    """Requests one after another, each at so many days before now."""

    def __init__(self, setup):
        self.parts = [b"@setup %d\n" % len(setup), setup, b"\n"]
        self.turn, self.now = 0, int(time.time())

    def ask(self, days_ago, method, path, body=None, session=None):
        """Adds a request; the session that it makes, where it is a login."""
        self.turn += 1
        data = b"" if body is None else json.dumps(body).encode()
        head = f"{method} {path} HTTP/1.1\r\nContent-Length: {len(data)}\r\n" + (f"X-Session: {session}\r\n" if session else "") + "\r\n"
        request = head.encode() + data
        words = f"{0:016x} {RECEIPT + self.turn:016x} {0:016x} {self.turn:016x}"
        moment = self.now - days_ago * DAY + self.turn
        self.parts += [f"@{moment} {words} {len(request)}\n".encode(), request, b"\n"]
        return f"{self.turn}-{self.turn:032x}"

    def script(self):
        return b"".join(self.parts)


def make_past(machine, passwords):
    """Two reports to the first organisation: one of 100 days ago that nobody acknowledged, and one of 20 days ago whose identity was
    granted to the first recipient 15 days ago. The first has the receipt that is given."""
    with open(machine.setup, "rb") as it:
        past = Past(it.read())
    answers = {"what": "Old rubble in the harbour.", "areas": ["environment"], "ongoing": "yes", "danger": "no"}
    past.ask(100, "POST", "/t/1/reports", {"context": 1, "answers": answers})
    past.ask(20, "POST", "/t/1/reports", {"context": 1, "answers": {**answers, "what": "A tender was fixed.", "name": "Ada Lund"}})
    recipient = past.ask(19, "POST", "/t/1/sessions", {"user": "recipient", "password": passwords["recipient"]})
    past.ask(19, "POST", "/t/1/reports/2/acknowledgement", session=recipient)
    past.ask(19, "POST", "/t/1/reports/2/access", {"reason": "A witness has to be protected."}, recipient)
    custodian = past.ask(15, "POST", "/t/1/sessions", {"user": "custodian", "password": passwords["custodian"]})
    past.ask(15, "POST", "/t/1/access/2/1", {"decision": "grant", "reason": "The court asks for it."}, custodian)
    replies = machine.play(past.script())
    statuses = [line[1:4] for line in replies.splitlines() if line.startswith("@")]
    assert statuses == ["201"] * 7, replies
    return f"{RECEIPT + 1:016d}"
