"""The organisations that the checks work with: the one of deploy/setup.toml, and two beside it."""
import tomllib

QUESTIONS = """{"steps": [
  {"title": "All kinds", "fields": [
    {"id": "t", "label": "A text", "kind": "text", "required": true, "max": 10},
    {"id": "c", "label": "A choice", "kind": "choice", "options": [{"id": "a", "label": "Alpha"}, {"id": "b", "label": "Beta"}, {"id": "c", "label": "Gamma"}]},
    {"id": "m", "label": "Some", "kind": "multi", "options": [{"id": "x", "label": "Ex"}, {"id": "y", "label": "Why"}, {"id": "z", "label": "Zed"}]},
    {"id": "d", "label": "A day", "kind": "date"}, {"id": "k", "label": "Yes or no", "kind": "check"},
    {"id": "w", "label": "A number", "kind": "whole"}, {"id": "f", "label": "A file", "kind": "file"},
    {"id": "g", "label": "Another file", "kind": "file"}]},
  {"title": "Triggers", "fields": [
    {"id": "any", "label": "With any", "kind": "text", "show": {"any": [{"field": "c", "option": "a"}, {"field": "m", "option": "x"}]}},
    {"id": "all", "label": "With all", "kind": "text", "required": true, "max": 8, "show": {"all": [{"field": "c", "option": "b"}, {"field": "m", "option": "y"}]}},
    {"id": "score", "label": "With points", "kind": "choice", "options": [{"id": "p", "label": "Pea"}, {"id": "q", "label": "Queue"}],
      "show": {"score": {"least": 3, "parts": [{"field": "c", "option": "a", "points": 1}, {"field": "m", "option": "x", "points": 1},
        {"field": "m", "option": "y", "points": 1}, {"field": "m", "option": "z", "points": 2}]}}},
    {"id": "deep", "label": "After points", "kind": "text", "required": true, "show": {"all": [{"field": "score", "option": "p"}]}},
    {"id": "__proto__", "label": "A name of the language", "kind": "text"}, {"id": "constructor", "label": "Another", "kind": "text"}]},
  {"title": "You", "fields": [
    {"id": "name", "label": "Your name", "kind": "text", "required": true, "identity": true, "max": 20},
    {"id": "tie", "label": "Your tie", "kind": "choice", "identity": true, "options": [{"id": "i", "label": "Inside"}, {"id": "j", "label": "Outside"}],
      "show": {"any": [{"field": "c", "option": "a"}, {"field": "c", "option": "b"}]}},
    {"id": "more", "label": "More", "kind": "text", "required": true, "identity": true, "show": {"all": [{"field": "tie", "option": "i"}]}},
    {"id": "seal", "label": "Under seal", "kind": "text", "identity": true, "show": {"score": {"least": 2, "parts": [
      {"field": "c", "option": "b", "points": 1}, {"field": "tie", "option": "j", "points": 1}]}}}]}]}"""

PLAIN = '{"steps": [{"title": "Short", "fields": [{"id": "what", "label": "What is wrong", "kind": "text", "required": true}]}]}'

OTHERS = f"""
[[tenant]]
id = 2
name = "Dock Works"
salt = "0f0e0d0c0b0a09080706050403020100"
offset = 120
quota = 100000
notice_days = 0
external = true
user = [
  {{id = 1, name = "rita", role = "recipient", password = "rita-pass", enabled = true, may = []}},
  {{id = 2, name = "carl", role = "custodian", password = "carl-pass", enabled = true, may = []}},
  {{id = 3, name = "alma", role = "admin", password = "alma-pass", enabled = true, may = []}}]
form = [{{id = 1, form = '''{QUESTIONS}'''}}, {{id = 2, form = '''{PLAIN}'''}}]
context = [
  {{id = 1, name = "All kinds of things", form = 1, retention = 30, recipients = [1], open = true}},
  {{id = 2, name = "A short word", form = 2, retention = 30, recipients = [1], open = true}}]

[[tenant]]
id = 3
name = "Small Office"
salt = "1f0e0d0c0b0a09080706050403020100"
offset = 0
quota = 1
notice_days = 0
user = [{{id = 1, name = "ria", role = "recipient", password = "ria-pass", enabled = true, may = []}}]
form = [{{id = 1, form = '''{PLAIN}'''}}]
context = [{{id = 1, name = "Everything", form = 1, retention = 30, recipients = [1], open = true}}]
"""


def prepare(machine):
    """Adds the other organisations to the setup and gives the passwords of the first one's users."""
    with open(machine.setup, "a") as it:
        it.write(OTHERS)
    with open(machine.setup, "rb") as it:
        found = tomllib.load(it)
    return {user["name"]: user["password"] for user in found["tenant"][0]["user"]}
