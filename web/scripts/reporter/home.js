// Where a reporter begins: with a new report, or with the receipt of one.
import { button, el } from "../shared/dom.js";
import { actForm, textControl } from "../shared/controls.js";
import { drawHeader } from "../shared/header.js";
import { Refusal, send } from "../shared/host.js";
import { begin, open } from "../shared/pages.js";
import { login } from "../shared/session.js";
import { say } from "../shared/texts.js";
import { ownReport } from "./own-report.js";
import { digitsOf } from "./receipt.js";
import { openContext } from "./submission.js";

function contexts(list) {
  if (list.length === 0) return el("p", {}, say("no_contexts"));
  return el("ul", { class: "plain cards" }, list.map((context) =>
    el("li", {}, button(context.name, () => open(() => openContext(context.id)), "link"))));
}

function comeBack() {
  const receipt = textControl({ name: "receipt", label: say("receipt_label"), hint: say("receipt_hint"), max: 64 });
  return actForm({
    controls: [receipt],
    label: say("come_back"),
    run: async (values) => {
      const digits = digitsOf(values.receipt);
      if (!digits) throw new Refusal("receipt_digits", { field: "receipt" });
      await login({ receipt: digits });
    },
    done: () => begin(ownReport),
  });
}

/** The first view of the page, with what there is to be said before. */
export async function home(before) {
  const tenant = await send("GET", "");
  drawHeader(tenant.name);
  return {
    title: tenant.name,
    body: [
      before,
      el("p", {}, say("home_intro")),
      el("h2", {}, say("new_report")),
      el("p", {}, say("choose_context")),
      contexts(tenant.contexts),
      el("h2", {}, say("come_back_heading")),
      comeBack(),
      el("h2", {}, say("safety_heading")),
      el("ul", {}, ["safety_device", "safety_files", "safety_tor", "safety_page"].map((key) => el("li", {}, say(key)))),
    ],
  };
}
