"""The rules of triggers and answers: the pages' module and the host say the same of every case."""
import base64
import json
import random

TENANT = 2
ANSWERS = ("/scripts/shared/answers.js", 600, 160)

JUDGE = """
const [address, form, cases] = arguments;
const {answersOf, faultsOf, identityFaultsOf} = await import(address);
done(cases.map(({before, answers}) => {
  const given = answersOf(answers);
  const found = before ? identityFaultsOf(form, answersOf(before), given) : faultsOf(form, given);
  return found.length > 0 ? [found[0].code, found[0].field] : null;
}));
"""


def file(size, name="a.txt"):
    return {"name": name, "data": base64.b64encode(b"x" * size).decode()}


VALUES = {
    "t": ["ok", "ten bytes!", "eleven byte", "äöüäö", "äöüäöü", 5, True, ["a"]],
    "c": ["a", "b", "c", "d", 1, ["a"], False],
    "m": [["x"], ["y"], ["z"], ["x", "y"], ["y", "z"], ["x", "y", "z"], ["x", "x"], ["q"], [], "x"],
    "d": ["2024-02-29", "2023-02-29", "1970-01-01", "1969-12-31", "5199-12-31", "5200-01-01", "2024-1-1", "2024-13-01", "2024-04-31", 7],
    "k": [True, False, "true", 1],
    "w": [0, -1, 10**12, -(10**12), 10**12 + 1, -(10**12) - 1, 2**62, "5", True],
    "f": [file(0), file(1), file(2), file(3), file(9, "n" * 128), file(9, "n" * 129), file(9, ""), {"name": "a", "data": "AB=="}, {"name": "a", "data": "AA="},
          {"name": "a", "data": "AA=A"}, {"name": "a", "data": "A*AA"}, {"name": "a", "data": "AAF="}, {"name": "a", "data": "AAE="}, "file", 4],
    "g": [file(5)],
    "any": ["here"], "all": ["here", "x" * 9, 3], "score": ["p", "q", "r"], "deep": ["here", 4],
    "name": ["Eve", "x" * 21, 1], "tie": ["i", "j", "k"], "more": ["here"], "seal": ["here"],
    "__proto__": ["here"], "constructor": ["here"],
}
UNKNOWN = ["zz", "ä", "b", "Z", "a\U0001f600", "a\uffff", "toString"]


def some_answers(draw, likely, ids):
    answers = {id: draw.choice(VALUES[id]) for id in ids if draw.random() < likely.get(id, 0.3)}
    if draw.random() < 0.05:
        answers |= {id: "here" for id in draw.sample(UNKNOWN, 2)}
    return answers


# the same with right answers alone, so that many cases come to the triggers
def right_answers(draw, ids):
    first = {"t": "ok", "c": draw.choice("abc"), "m": draw.choice(VALUES["m"][:6]), "score": draw.choice("pq"), "tie": draw.choice("ij")}
    return {id: first.get(id, "here" if id in ("any", "all", "deep", "more", "seal", "__proto__", "constructor") else VALUES[id][0])
            for id in ids if draw.random() < (0.9 if id in first else 0.5)}


def cases(ids, count, seed):
    draw = random.Random(seed)
    likely = {"t": 0.9, "c": 0.7, "m": 0.7}
    return [right_answers(draw, ids) if draw.random() < 0.6 else some_answers(draw, likely, ids) for _ in range(count)]


def told(reply, good):
    if reply.status == good:
        return None
    assert reply.status == 422, reply.text
    return [reply.body["code"], reply.body["field"]]


def differ(form, all_cases, host, page):
    return [f"{json.dumps(case)[:300]}: the host says {one}, the page {other}" for case, one, other in zip(all_cases, host, page) if one != other]


def check_rules(machine, browser):
    """Submissions and identities that are given later, as the host and as the page judge them."""
    address, count, late = ANSWERS
    browser.open("/")
    form = machine.ask("GET", f"/t/{TENANT}/contexts/1").body["form"]
    fields = [field for step in form["steps"] for field in step["fields"]]
    ids = [field["id"] for field in fields]
    assert sorted(ids) == sorted(VALUES), "a field has no values to try"
    all_cases = [{"answers": it} for it in cases(ids, count, 1)] + [{"answers": {"t": "ok", "f": file(size)}} for size in (150_000, 150_001)]
    submissions = [("POST", f"/t/{TENANT}/reports", {"context": 1, **it}, None) for it in all_cases]
    host = [told(reply, 201) for reply in machine.ask_all(submissions)]
    page = browser.run_module(JUDGE, address, form, all_cases)
    assert not differ(form, all_cases, host, page), differ(form, all_cases, host, page)[:5]
    every = {code for code, _ in filter(None, host)}
    assert every == {"unknown", "missing", "hidden", "wrong_kind", "too_long", "no_such_option"} and None in host, every
    check_late_rules(machine, browser, form, fields, address, late)


def check_late_rules(machine, browser, form, fields, address, count):
    public = [field["id"] for field in fields if not field["identity"]]
    ids = [field["id"] for field in fields if field["identity"]] + ["t"]
    reports = []
    tried = cases(public, 60, 2)
    for before, reply in zip(tried, machine.ask_all([("POST", f"/t/{TENANT}/reports", {"context": 1, "answers": it}, None) for it in tried])):
        if reply.status == 201:
            reports.append((before, machine.login(TENANT, receipt=reply.body["receipt"])))
    late = [(reports[place % len(reports)], given) for place, given in enumerate(cases(ids, count, 3)) if given]
    all_cases = [{"before": before, "answers": given} for (before, _), given in late]
    host = [told(reply, 200) for reply in machine.ask_all([("PUT", f"/t/{TENANT}/report/identity", {"answers": given}, session) for (_, session), given in late])]
    page = browser.run_module(JUDGE, address, form, all_cases)
    assert not differ(form, all_cases, host, page), differ(form, all_cases, host, page)[:5]
    assert None in host and len({code for code, _ in filter(None, host)}) >= 4, host
