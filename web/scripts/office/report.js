// One report, as its recipients work on it.
import { answersOf } from "../shared/answers.js";
import { dialogueOf } from "../shared/dialogue.js";
import { button, el, facts, notice } from "../shared/dom.js";
import { formsOf } from "../shared/forms-of-reports.js";
import { ask } from "../shared/session.js";
import { shownAnswers } from "../shared/shown-answers.js";
import { day, say } from "../shared/texts.js";
import { acknowledgement, commentForm, extensionForm, feedbackForm, labelForm, statusForm } from "./acts.js";
import { openContexts } from "./contexts.js";
import { identityPart } from "./identity.js";
import { deletion, postponement, readersPart, transferForm } from "./moves.js";

const standing = (report, contexts) => facts([
  [say("status"), say(`status_${report.status}`)],
  [say("context"), contexts.nameOf(report.context)],
  report.label && [say("label"), report.label],
  [say("received"), day(report.received)],
  report.acknowledged ? [say("acknowledged"), day(report.acknowledged)] : [say("ack_until"), day(report.ack_due)],
  [say("feedback_until"), say(report.feedback_given ? "feedback_was_given" : "day_only", { day: day(report.feedback_due) })],
  [say("expires"), day(report.expires)],
]);

const part = (heading, ...content) => {
  const found = content.flat(Infinity).filter(Boolean);
  return found.length > 0 && [el("h2", {}, heading), ...found];
};

function answersPart(report, forms) {
  const form = forms.length === 1 ? forms[0].form : null;
  return [!form && el("p", { class: "hint" }, say("form_unknown")), shownAnswers(form, answersOf(report.answers))];
}

/** The view of one report. */
export async function reportView(number) {
  const report = await ask("GET", `/reports/${number}`);
  const contexts = await openContexts();
  const asked = contexts.list.some((context) => context.id === report.context) ? [report.context] : contexts.list.map((it) => it.id);
  const forms = await formsOf(report, asked);
  return {
    title: say("report_number", { number }),
    body: [
      button(say("back_to_list"), () => history.back(), "quiet small"),
      report.status === "closed" && notice("", el("p", {}, say("closed_office_note"))),
      standing(report, contexts),
      part(say("answers"), answersPart(report, forms)),
      part(say("identity_part"), identityPart(report, forms)),
      part(say("dialogue"), dialogueOf(report.dialogue), commentForm(report)),
      part(say("next_steps"), acknowledgement(report), feedbackForm(report), extensionForm(report), statusForm(report), labelForm(report)),
      part(say("who_reads"), readersPart(report)),
      part(say("move_and_keep"), transferForm(report, contexts), postponement(report), deletion(report)),
    ],
  };
}
