// What recipients do to a report: comments, acknowledgement, feedback, extension, status, label.
import { actButton, actForm, disclosed, textControl, tickControl } from "../shared/controls.js";
import { refresh } from "../shared/pages.js";
import { ask } from "../shared/session.js";
import { say } from "../shared/texts.js";

const TEXT_BYTES = 4096;
const REASON_BYTES = 1024;
const isClosed = (report) => report.status === "closed";
const path = (report, rest) => `/reports/${report.number}/${rest}`;

/** A comment to the reporter, or one that stays inside. */
export function commentForm(report) {
  if (isClosed(report)) return null;
  const text = textControl({ name: "text", label: say("comment_label"), max: TEXT_BYTES, lines: 4, draft: `comment-${report.number}` });
  const internal = tickControl({ name: "internal", label: say("internal_label"), hint: say("internal_hint") });
  const run = (values) => ask("POST", path(report, "comments"), values);
  return actForm({ controls: [text, internal], label: say("send_comment"), run, done: refresh });
}

/** The acknowledgement of receipt, once. */
export function acknowledgement(report) {
  if (isClosed(report) || report.acknowledged) return null;
  return actButton(say("acknowledge"), () => ask("POST", path(report, "acknowledgement")), refresh, "");
}

/** Feedback to the reporter. */
export function feedbackForm(report) {
  if (isClosed(report)) return null;
  const content = () => {
    const said = { label: say("feedback_label"), hint: say("feedback_hint") };
    const text = textControl({ name: "text", ...said, max: TEXT_BYTES, lines: 5, draft: `feedback-${report.number}` });
    const run = (values) => ask("POST", path(report, "feedback"), values);
    return actForm({ controls: [text], label: say("send_feedback"), run, done: refresh });
  };
  return disclosed(say("give_feedback"), content);
}

let isInternalChannel = false;

async function extend(report, values) {
  try {
    await ask("POST", path(report, "extension"), values);
  } catch (error) {
    isInternalChannel = error.code === "not_external";
    throw error;
  }
}

/** More time for feedback, once, in an external channel. Whether it is one the host tells only by a refusal, which is remembered. */
export function extensionForm(report) {
  const isExtended = report.dialogue.some((entry) => entry.kind === "extension");
  if (isClosed(report) || isExtended || isInternalChannel) return null;
  const content = () => {
    const said = { label: say("extension_label"), hint: say("extension_hint") };
    const reason = textControl({ name: "reason", ...said, max: REASON_BYTES, lines: 3, draft: `extension-${report.number}` });
    return actForm({ controls: [reason], label: say("extend"), run: (values) => extend(report, values), done: refresh });
  };
  return disclosed(say("more_time"), content);
}

/** Opens or closes the report. */
export function statusForm(report) {
  const set = (status) => () => ask("PUT", path(report, "status"), { status });
  return [
    report.status !== "opened" && actButton(say("set_opened"), set("opened"), refresh),
    !isClosed(report) && actButton(say("set_closed"), set("closed"), refresh),
  ];
}

/** The label of the report, for the recipients' own order. */
export function labelForm(report) {
  const content = () => {
    const label = textControl({ name: "label", label: say("label"), hint: say("label_hint"), max: 64, required: false, value: report.label });
    return actForm({ controls: [label], label: say("save"), run: (values) => ask("PUT", path(report, "label"), values), done: refresh });
  };
  return disclosed(say("set_label"), content);
}
