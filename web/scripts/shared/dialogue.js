// What reporter and office said to one another, oldest first.
import { el } from "./dom.js";
import { moment, say } from "./texts.js";

const WHO = { reporter: "from_reporter", recipient: "from_recipient", custodian: "from_custodian" };

function remark(entry) {
  const who = entry.user ? say("user_number", { user: entry.user }) : say(WHO[entry.from]);
  return el("li", { class: entry.internal ? "internal-remark" : "" },
    el("p", { class: "remark-head" }, `${moment(entry.at)} · ${who} `,
      el("span", { class: "tag" }, say(`remark_${entry.kind}`)),
      entry.internal && [" ", el("span", { class: "tag internal" }, say("internal"))]),
    entry.text && el("p", { class: "remark" }, entry.text));
}

/** The dialogue of a report. */
export const dialogueOf = (entries) =>
  entries.length > 0 ? el("ol", { class: "plain cards" }, entries.map(remark)) : el("p", {}, say("no_dialogue"));
