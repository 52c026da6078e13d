// A new report: the questionnaire of a context, a last look, and its receipt.
import { faultsOf, fieldsOf } from "../shared/answers.js";
import { actForm } from "../shared/controls.js";
import { button, el, notice } from "../shared/dom.js";
import { send } from "../shared/host.js";
import { begin } from "../shared/pages.js";
import { Asked, firstFault, openFirstStep, reviewed } from "../shared/questionnaire.js";
import { say } from "../shared/texts.js";
import { receiptView } from "./receipt.js";

const DRAWS = 5;

// A receipt that another report has is drawn anew; the reporter need not know.
async function submit(body) {
  for (let draw = 1; ; draw += 1) {
    try {
      return await send("POST", "/reports", { body });
    } catch (error) {
      if (error.code !== "receipt_taken" || draw === DRAWS) throw error;
    }
  }
}

const labels = (fields) => el("ul", {}, fields.map((field) => el("li", {}, field.label)));

/** What a context asks, and which of it says who the reporter is, before anything is asked. */
export async function openContext(id) {
  const context = await send("GET", `/contexts/${id}`);
  const identity = fieldsOf(context.form).filter((field) => field.identity);
  const asked = new Asked({
    form: context.form,
    judge: (answers) => faultsOf(context.form, answers),
    review: (it) => review(it, context),
  });
  return {
    title: context.name,
    body: [
      el("p", {}, say("form_intro", { count: context.form.steps.length })),
      el("ol", {}, context.form.steps.map((step) => el("li", {}, step.title))),
      identity.length > 0
        ? el("section", { class: "identity" }, el("h3", {}, say("identity_asked")), labels(identity), el("p", {}, say("identity_note")))
        : notice("", el("p", {}, say("identity_never_asked"))),
      el("p", {}, say("others_are_read")),
      el("div", { class: "row" }, button(say("start"), () => openFirstStep(asked)), button(say("back"), () => history.back(), "quiet")),
    ],
  };
}

function review(asked, context) {
  const fault = firstFault(asked);
  let receipt;
  return {
    title: say("review_title"),
    body: [
      el("p", {}, say("review_intro", { context: context.name })),
      reviewed(asked),
      fault ?? actForm({
        label: say("send_report"),
        more: button(say("back"), () => history.back(), "quiet"),
        run: async () => {
          const answers = Object.fromEntries(asked.answers());
          try {
            receipt = await submit({ context: context.context, answers });
          } catch (error) {
            if (!error.field) throw error;
            asked.refuse(error);
          }
        },
        done: () => receipt && begin(() => receiptView(receipt)),
      }),
    ],
  };
}

