// The receipt of a report: sixteen digits, shown in four groups.
import { actButton } from "../shared/controls.js";
import { announce, button, el, notice } from "../shared/dom.js";
import { Refusal } from "../shared/host.js";
import { begin } from "../shared/pages.js";
import { login } from "../shared/session.js";
import { say } from "../shared/texts.js";
import { home } from "./home.js";
import { ownReport } from "./own-report.js";

/** The digits of a receipt as it was typed, with or without spaces, or null. */
export function digitsOf(typed) {
  const digits = typed.replace(/[\s-]/g, "");
  return /^[0-9]{16}$/.test(digits) ? digits : null;
}

const groupsOf = (receipt) => receipt.match(/[0-9]{4}/g);

async function copy(receipt) {
  try {
    await navigator.clipboard.writeText(receipt);
  } catch {
    throw new Refusal("copy");
  }
}

/** The receipt of a report that was made just now. */
export function receiptView({ number, receipt }) {
  const groups = groupsOf(receipt);
  return {
    title: say("receipt_title"),
    body: [
      notice("good", el("p", {}, say("report_sent", { number }))),
      el("p", { class: "receipt", "aria-label": groups.join(" ") }, groups.map((group) => el("span", { "aria-hidden": "true" }, group))),
      el("div", { class: "row no-print" },
        actButton(say("copy"), () => copy(receipt), () => announce(say("copied")), ""),
        button(say("print"), () => print(), "quiet")),
      el("ul", {}, ["receipt_keep", "receipt_secret", "receipt_lost", "receipt_next"].map((key) => el("li", {}, say(key)))),
      el("div", { class: "row no-print" },
        actButton(say("open_report"), () => login({ receipt }), () => begin(ownReport)),
        button(say("finish"), () => begin(() => home()), "quiet")),
    ],
  };
}
