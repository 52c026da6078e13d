r"""Reads tables of requests with their replies.

A table is a file `NAME.rows` beside this one, of cases. `#` begins a remark where a line begins with it; spaces at the front are passed over:

    case NAME                     begins a case: what follows up to the next one
    from NAME                     its file begins as the one that this earlier case of the table left
    file TEXT                     its file begins as these bytes, and is to stay so
    setup city | docks | none | TEXT
                                  the setup: one tenant (where none is named), two of them, no frame of a setup, or the text itself
    in setup OLD => NEW           it has NEW in place of the first OLD
    > SECONDS WHO METHOD PATH BODY
                                  a request: seconds after 2025-01-01 00:00 UTC; `-` for no session, the turn of the login, or `=` and the session's text
    >> SECONDS BYTES              a request that is these bytes
    < STATUS BODY | FIELD         its reply; fields beside the three of each reply stand after ` | `
    words W0 W1 W2 W3             the next request's words; else those of the n-th request of a start are 0, n, 0, n
    fields TEXT                   further lines of the next request's head
    frame TEXT                    bytes of the script in place of a frame
    repeat A B .. end             the lines between, once for each number from A to B, which is `$k` in them
    each TEXT TEXT .. end         the lines between, once for each of these texts, which is `$v` in them; whole cases too
    cut                           besides, the file is played by two starts that part here, with the same replies
    ends STATUS LINE              how the start ends; with 0 and no line where this is not said
    start                         another start over the same file follows, with the same setup
    change KEY OLD => NEW, put KEY TEXT, drop KEY, move KEY KEY, sql STATEMENT
                                  a change of the file before the start; a key is KIND/TENANT/A/B
    rows N, holds KEY TEXT, lacks KEY, stays
                                  what the file has after the start; with `stays`, and after an end with 9, the rows that it had before
    input waits [N] | breaks [N]  each reply is awaited before the next frame is sent, in pieces of N bytes; `breaks`: then reading fails
    full                          with `input waits`: the file takes no byte while the next request is answered
    output full                   standard output takes no byte
    call WORDS, prints TEXT       the words of the program in place of `play`, without a file, and its output; `prints script` is the case's own script

In BYTES, TEXT, OLD and NEW of all lines but `holds`, `put` and `change`, `\n`, `\r`, `\t`, `\xHH` and `\\` stand for bytes. In each line `$s<K>` is the session
of turn K, `$r<N>` the receipt of the number N, `$x<T,N>` the text T N times, and `$each<A,B|T>` is T for each number from A to B, which is `#` in it, with
commas between.
"""
import re, sys

BEGIN = 1_735_689_600
PHRASES = {200: "OK", 201: "Created", 400: "Bad Request", 401: "Unauthorized", 403: "Forbidden", 404: "Not Found", 405: "Method Not Allowed",
           409: "Conflict", 411: "Length Required", 413: "Payload Too Large", 422: "Unprocessable Entity", 429: "Too Many Requests",
           503: "Service Unavailable", 507: "Insufficient Storage"}


def written(text):
    """A text with what stands for sessions, receipts and repeated texts written out."""
    text = re.sub(r"\$x<([^,>]*),(\d+)>", lambda m: m[1] * int(m[2]), text)
    text = re.sub(r"\$s<(\d+)>", lambda m: f"{m[1]}-{int(m[1]):032x}", text)
    text = re.sub(r"\$r<(\d+)>", lambda m: f"{int(m[1]):016d}", text)
    return re.sub(r"\$each<(\d+),(\d+)\|([^>]*)>", lambda m: ",".join(m[3].replace("#", str(n)) for n in range(int(m[1]), int(m[2]) + 1)), text)


def as_bytes(text):
    """A text with backslashes as bytes."""
    return re.sub(rb"\\(x[0-9a-f]{2}|.)", lambda m: bytes.fromhex(m[1][1:].decode()) if m[1][:1] == b"x" and m[1][1:] else
                  {b"n": b"\n", b"r": b"\r", b"t": b"\t", b"\\": b"\\"}[m[1]], text.encode())


def parted(text):
    """The two sides of `OLD => NEW`; the second may be empty."""
    old, _, new = text.partition(" =>")
    return old, new.removeprefix(" ")


class Start:
    """One start of a case: the changes before it, its turns, and what is wanted of it."""

    def __init__(self, setup):
        self.setup, self.changes, self.frames, self.full, self.replies, self.lines, self.after = setup, [], [], set(), [], [], []
        self.status, self.line, self.input, self.output, self.call, self.prints, self.cut = 0, "", None, None, None, None, None

    def script(self, frames=None):
        """The script of the setup and these frames, or all of them."""
        setup = b"" if self.setup is None else b"@setup %d\n%s\n" % (len(self.setup), self.setup)
        return setup + b"".join(self.frames if frames is None else frames)


class Case:
    def __init__(self, name, line, setups):
        self.name, self.line, self.source, self.file, self.setups = name, line, None, None, setups
        self.starts, self.words, self.fields = [Start(setups["city"])], None, b""

    def take(self, line, at):
        """Takes one line of the table."""
        start = self.starts[-1]
        verb, _, rest = line.partition(" ")
        if verb == "from": self.source = rest
        elif verb == "file": self.file = as_bytes(rest)
        elif verb == "setup": start.setup = None if rest == "none" else self.setups.get(rest) or as_bytes(rest)
        elif verb == "in":
            old, new = map(as_bytes, parted(rest.removeprefix("setup ")))
            if old not in start.setup: raise ValueError("the setup has no such text")
            start.setup = start.setup.replace(old, new, 1)
        elif verb == "words": self.words = [int(word) for word in rest.split()]
        elif verb == "fields": self.fields = as_bytes(rest)
        elif verb == ">":
            seconds, who, method, path, *body = rest.split(" ", 4)
            session = "" if who == "-" else f"X-Session: {who[1:] if who[0] == '=' else written(f'$s<{who}>')}\r\n"
            text = body[0].encode() if body else b""
            length = f"Content-Length: {len(text)}\r\n" if body else ""
            head = f"{method} {path} HTTP/1.1\r\nHost: h\r\n{session}".encode() + self.fields + f"{length}\r\n".encode()
            self.frame(start, int(seconds), head + text)
        elif verb == ">>":
            seconds, text = rest.split(" ", 1)
            self.frame(start, int(seconds), as_bytes(text))
        elif verb == "frame": start.frames.append(as_bytes(rest))
        elif verb == "<":
            status, body = rest.split(" ", 1)
            body, *fields = body.split(" | ")
            head = [f"HTTP/1.1 {status} {PHRASES[int(status)]}", "Content-Type: application/json", "Cache-Control: no-store", f"Content-Length: {len(body.encode())}"]
            reply = "\r\n".join(head + fields + ["", body]).encode()
            start.replies.append(b"@%s %d\n%s\n" % (status.encode(), len(reply), reply))
            start.lines.append(at)
        elif verb == "start":
            self.starts.append(Start(start.setup))
        elif verb == "ends":
            status, _, start.line = rest.partition(" ")
            start.status = int(status)
        elif verb == "full": start.full.add(len(start.frames) + 1)
        elif verb == "cut": start.cut = len(start.frames)
        elif verb in ("change", "put", "drop", "move", "sql"): start.changes.append((verb, rest))
        elif verb in ("rows", "holds", "lacks", "stays"): start.after.append((verb, rest))
        elif verb in ("input", "output", "call"): setattr(start, verb, rest.split())
        elif verb == "prints": start.prints = rest
        else: raise ValueError(f"no line of a table begins so: {verb}")

    def frame(self, start, seconds, request):
        n = len(start.frames) + 1
        words = self.words or [0, n, 0, n]
        start.frames.append(b"@%d %016x %016x %016x %016x %d\n%s\n" % (BEGIN + seconds, *words, len(request), request))
        self.words, self.fields = None, b""


def read_table(path, setups):
    """The cases of a table."""
    cases, kept, loop = [], [], None
    for at, line in enumerate(path.read_text().split("\n"), 1):
        line = line.strip(" ")
        if not line or line[0] == "#": continue
        if line.startswith("repeat "):
            first, last = map(int, line.split()[1:])
            kept, loop = [], ("$k", [str(k) for k in range(first, last + 1)])
        elif line.startswith("each "): kept, loop = [], ("$v", line.split()[1:])
        elif line == "end": lines, loop = [(row.replace(loop[0], text), n) for text in loop[1] for row, n in kept], None
        elif loop: kept.append((line, at))
        else: lines = [(line, at)]
        if loop: continue
        for row, n in lines:
            try:
                if row.startswith("case "): cases.append(Case(row[5:], n, setups))
                else: cases[-1].take(written(row), n)
            except (ValueError, IndexError, KeyError) as fault: sys.exit(f"{path.name}:{n}: {fault!r}")
    return cases
