// The identity of a report: whether it was given, asked for, and opened to this recipient.
import { answersOf } from "../shared/answers.js";
import { actButton, actForm, disclosed, textControl } from "../shared/controls.js";
import { button, el, facts } from "../shared/dom.js";
import { open, refresh } from "../shared/pages.js";
import { ask } from "../shared/session.js";
import { shownAnswers } from "../shared/shown-answers.js";
import { moment, say } from "../shared/texts.js";

/** A request for an identity, as both desks show it. */
export const requestFacts = (request) => facts([
  [say("request_by"), say("user_number", { user: request.by })],
  [say("request_reason"), request.reason],
  [say("request_state"), say(`state_${request.state}`)],
  request.effective !== null && [say("request_effective"), moment(request.effective)],
]);

const requests = (report) => report.requests.length > 0 &&
  el("ul", { class: "plain cards" }, report.requests.map((it) =>
    el("li", {}, el("p", {}, say("request_number", { request: it.id })), requestFacts(it))));

async function identityView(number, form) {
  const { answers } = await ask("GET", `/reports/${number}/identity`);
  return {
    title: say("identity_of", { number }),
    body: [
      el("section", { class: "identity" },
        el("p", {}, say("identity_open_note")),
        shownAnswers(form, answersOf(answers))),
      button(say("back"), () => history.back(), "quiet"),
    ],
  };
}

function askForm(report) {
  const content = () => {
    const said = { label: say("ask_reason"), hint: say("ask_hint") };
    const reason = textControl({ name: "reason", ...said, max: 1024, lines: 3, draft: `ask-${report.number}` });
    const run = (values) => ask("POST", `/reports/${report.number}/access`, values);
    return actForm({ controls: [reason], label: say("ask_identity"), run, done: refresh });
  };
  return disclosed(say("ask_identity_open"), content);
}

/** What stands of a report's identity, and what can be done about it. */
export function identityPart(report, forms) {
  const form = forms.length === 1 ? forms[0].form : null;
  const read = () => open(() => identityView(report.number, form));
  return el("section", { class: "identity" },
    el("p", {}, say(`identity_${report.identity}`)),
    report.identity === "open" && el("div", { class: "row" }, button(say("read_identity"), read)),
    report.identity === "sealed" && [requests(report), askForm(report), actButton(say("look_again"), () => {}, refresh, "quiet small")],
    report.identity === "open" && requests(report));
}
