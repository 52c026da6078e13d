// A reporter's own report, opened with its receipt.
import { answersOf, fieldsOf, identityFaultsOf } from "../shared/answers.js";
import { actForm, textControl } from "../shared/controls.js";
import { dialogueOf } from "../shared/dialogue.js";
import { button, el, facts, notice } from "../shared/dom.js";
import { forgetDrafts } from "../shared/drafts.js";
import { formChoice, formsOf } from "../shared/forms-of-reports.js";
import { drawHeader } from "../shared/header.js";
import { send } from "../shared/host.js";
import { begin, refresh } from "../shared/pages.js";
import { Asked, firstFault, openFirstStep, reviewed } from "../shared/questionnaire.js";
import { ask, logout } from "../shared/session.js";
import { shownAnswers } from "../shared/shown-answers.js";
import { day, say } from "../shared/texts.js";
import { home } from "./home.js";

function leave() {
  logout();
  forgetDrafts();
  return begin(() => home(notice("good", el("p", {}, say("logged_out")))));
}

const standing = (report) => facts([
  [say("status"), say(`status_${report.status}`)],
  [say("received"), day(report.received)],
  [say("acknowledged"), report.acknowledged ? day(report.acknowledged) : say("not_yet")],
  [say("feedback_due"), day(report.feedback_due)],
  [say("expires"), day(report.expires)],
]);

function extensionNote(report) {
  const extension = report.dialogue.find((entry) => entry.kind === "extension");
  return extension && notice("", el("p", {}, say("extended_until", { day: day(report.feedback_due) })), el("p", { class: "remark" }, extension.text));
}

function commentForm(report) {
  const text = textControl({ name: "text", label: say("comment_label"), hint: say("comment_hint"), max: 4096, lines: 4, draft: `comment-${report.number}` });
  return report.status === "closed"
    ? notice("", el("p", {}, say("closed_note")))
    : actForm({ controls: [text], label: say("send_comment"), run: (values) => ask("POST", "/report/comments", values), done: refresh });
}

// asks who the reporter is, as the report's questionnaire does
function askIdentity(report, form) {
  const before = answersOf(report.answers);
  const asked = new Asked({
    form,
    before,
    asks: (field) => field.identity,
    judge: (answers) => identityFaultsOf(form, before, answers),
    review: identityReview,
  });
  return openFirstStep(asked);
}

function identityReview(asked) {
  const isEmpty = asked.answers().size === 0;
  return {
    title: say("identity_review_title"),
    body: [
      el("p", {}, say("identity_replaces")),
      reviewed(asked),
      firstFault(asked) ?? (isEmpty ? notice("bad", el("p", {}, say("identity_empty"))) : actForm({
        label: say("send_identity"),
        run: () => giveIdentity(asked),
        done: () => asked.refused.size === 0 && begin(ownReport),
      })),
      button(say("back"), () => history.back(), "quiet"),
    ],
  };
}

async function giveIdentity(asked) {
  try {
    await ask("PUT", "/report/identity", { answers: Object.fromEntries(asked.answers()) });
  } catch (error) {
    if (!error.field) throw error;
    asked.refuse(error);
  }
}

function identityPart(report, forms) {
  const known = forms.length === 1 ? forms[0].form : null;
  const given = report.identity
    ? [el("p", {}, say("identity_given")), shownAnswers(known, answersOf(report.identity))]
    : el("p", {}, say("identity_not_given"));
  const asking = forms.filter((view) => fieldsOf(view.form).some((field) => field.identity));
  return el("section", { class: "identity" }, el("h3", {}, say("identity_heading")), given, el("p", {}, say("identity_note")),
    report.status !== "closed" && offer(report, asking));
}

function offer(report, asking) {
  const label = say(report.identity ? "replace_identity" : "give_identity");
  if (asking.length === 0) return el("p", {}, say("identity_form_unknown"));
  if (asking.length === 1) return el("div", { class: "row" }, button(label, () => askIdentity(report, asking[0].form)));
  return [el("p", {}, say("which_form")), formChoice(asking, (form) => askIdentity(report, form))];
}

/** The view of a reporter's own report. */
export async function ownReport() {
  const report = await ask("GET", "/report");
  const tenant = await send("GET", "");
  const forms = await formsOf(report, tenant.contexts.map((context) => context.id));
  drawHeader(tenant.name, leave);
  return {
    title: say("your_report", { number: report.number }),
    body: [
      standing(report),
      extensionNote(report),
      el("h2", {}, say("dialogue")),
      dialogueOf(report.dialogue),
      commentForm(report),
      el("h2", {}, say("what_you_said")),
      shownAnswers(forms.length === 1 ? forms[0].form : null, answersOf(report.answers)),
      identityPart(report, forms),
    ],
  };
}
