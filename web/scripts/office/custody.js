// The custodian's desk: who asks for an identity, and what is decided.
import { actForm, disclosed, textControl, tickControl } from "../shared/controls.js";
import { el } from "../shared/dom.js";
import { refresh } from "../shared/pages.js";
import { ask } from "../shared/session.js";
import { say } from "../shared/texts.js";
import { requestFacts } from "./identity.js";

const REASON_BYTES = 1024;

const reasonControl = (request, decision) => textControl({
  name: "reason",
  label: say(`${decision}_reason`),
  hint: say(`${decision}_hint`),
  max: REASON_BYTES,
  lines: 3,
  draft: `${decision}-${request.number}-${request.id}`,
});

const decide = (request, body) => ask("POST", `/access/${request.number}/${request.id}`, body);

// a decision that has only a reason
function plainForm(request, decision, look) {
  const content = () => actForm({
    controls: [reasonControl(request, decision)],
    label: say(decision),
    run: (values) => decide(request, { decision, ...values }),
    done: refresh,
  });
  return disclosed(say(`${decision}_open`), content, look);
}

// a grant, of which the reporter is told, unless that is withheld for a reason
function grantForm(request) {
  const content = () => {
    const reason = reasonControl(request, "grant");
    const withheld = tickControl({ name: "withheld", label: say("withhold"), hint: say("withhold_hint") });
    const why = textControl({ name: "withhold", label: say("withhold_reason"), max: REASON_BYTES, lines: 3 });
    why.box.hidden = true;
    withheld.input.addEventListener("change", () => (why.box.hidden = !withheld.input.checked));
    const needed = { ...why, fault: () => (withheld.input.checked ? why.fault() : "") };
    const run = (values) => decide(request, {
      decision: "grant",
      reason: values.reason,
      ...(values.withheld ? { withhold: values.withhold } : {}),
    });
    return actForm({ controls: [reason, withheld, needed], label: say("grant"), run, done: refresh });
  };
  return disclosed(say("grant_open"), content, "");
}

const decisions = (request) => [
  request.state === "waiting" && [grantForm(request), plainForm(request, "deny", "quiet")],
  request.state === "granted" && plainForm(request, "revoke", "danger"),
];

const card = (request) =>
  el("li", {}, el("h3", {}, say("request_on", { request: request.id, number: request.number })), requestFacts(request), decisions(request));

const list = (requests) => (requests.length > 0 ? el("ul", { class: "plain cards" }, requests.map(card)) : el("p", {}, say("no_requests")));

/** The view of all requests, those that wait first. */
export async function custody() {
  const { requests } = await ask("GET", "/access");
  const isWaiting = (request) => request.state === "waiting";
  return {
    title: say("custody"),
    body: [
      el("p", {}, say("custody_note")),
      el("h2", {}, say("requests_waiting")),
      list(requests.filter(isWaiting)),
      el("h2", {}, say("requests_decided")),
      list(requests.filter((request) => !isWaiting(request))),
    ],
  };
}
