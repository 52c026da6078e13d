// Who reads a report, where it stands and how long it is kept. Each of these wants a right of its own.
import { actButton, actForm, disclosed, numberControl, selectControl } from "../shared/controls.js";
import { button, el, notice } from "../shared/dom.js";
import { begin, refresh } from "../shared/pages.js";
import { ask } from "../shared/session.js";
import { say } from "../shared/texts.js";
import { inbox } from "./inbox.js";
import { may } from "./rights.js";

const path = (report, rest) => `/reports/${report.number}/${rest}`;

/** The readers, and where the right is there, how they are added and taken away. */
export function readersPart(report) {
  const line = (user) => el("li", {}, el("p", {}, say("user_number", { user })),
    may("share") && report.readers.length > 1 &&
      actButton(say("remove_reader", { user }), () => ask("DELETE", path(report, `readers/${user}`)), refreshOrLeave(report), "quiet small"));
  const add = () => {
    const said = { label: say("reader_label"), hint: say("reader_hint") };
    const user = numberControl({ name: "user", ...said, least: 1, most: 256 });
    const run = (values) => ask("POST", path(report, "readers"), values);
    return actForm({ controls: [user], label: say("add_reader"), run, done: refresh, marks: { already: "user", not_found: "user" } });
  };
  return [el("ul", { class: "plain cards" }, report.readers.map(line)), may("share") && disclosed(say("share"), add)];
}

// A reader who takes away his own reading has no report to go back to.
const refreshOrLeave = (report) => () => ask("GET", `/reports/${report.number}`).then(refresh, () => begin(inbox));

/** Moves the report to another open context. Its readers are then that context's. */
export function transferForm(report, contexts) {
  const others = contexts.list.filter((context) => context.id !== report.context);
  if (report.status === "closed" || !may("transfer") || others.length === 0) return null;
  const content = () => {
    const options = others.map((it) => [String(it.id), it.name]);
    const context = selectControl({ name: "context", label: say("transfer_label"), hint: say("transfer_hint"), options });
    const run = (values) => ask("POST", path(report, "transfer"), { context: Number(values.context) });
    return actForm({ controls: [context], label: say("transfer"), run, done: refreshOrLeave(report) });
  };
  return disclosed(say("transfer_open"), content);
}

/** Keeps the report longer. */
export const postponement = (report) =>
  may("postpone") && actButton(say("postpone"), () => ask("POST", path(report, "postponement")), refresh);

// the second question: the report's number has to be typed
function lastQuestion(report) {
  const typed = numberControl({ name: "number", label: say("delete_type", { number: report.number }), least: report.number, most: report.number });
  return actForm({
    controls: [typed],
    label: say("delete_for_good"),
    look: "danger",
    run: () => ask("DELETE", `/reports/${report.number}`),
    done: () => begin(inbox),
  });
}

/** Deletes the report for good, after two questions. */
export function deletion(report) {
  if (!may("delete")) return null;
  const content = () => {
    const box = el("div");
    const goOn = button(say("delete_yes"), () => {
      box.replaceChildren(lastQuestion(report));
      box.querySelector("input").focus();
    }, "danger");
    box.append(notice("bad", el("p", {}, say("delete_question", { number: report.number }))), el("div", { class: "row" }, goOn));
    return box;
  };
  return disclosed(say("delete"), content);
}
