// A recipient's reports: what is due first stands first, and what is over is marked.
import { button, el } from "../shared/dom.js";
import { open } from "../shared/pages.js";
import { ask } from "../shared/session.js";
import { day, say } from "../shared/texts.js";
import { openContexts } from "./contexts.js";
import { reportView } from "./report.js";

const tag = (text, kind = "") => el("span", { class: `tag ${kind}` }, text);

const dueLine = (due) =>
  el("p", {}, say(`due_${due.kind}`, { day: day(due.day) }), " ", due.over && tag(say("over"), "over"));

function card(report, dues, contexts) {
  const isOver = dues.some((due) => due.over);
  return el("li", { class: isOver ? "over" : "" },
    el("p", {},
      button(say("report_number", { number: report.number }), () => open(() => reportView(report.number)), "link"), " ",
      tag(say(`status_${report.status}`), report.status === "closed" ? "done" : ""), " ", report.label && tag(report.label)),
    el("p", {}, `${contexts.nameOf(report.context)} · ${say("received_on", { day: day(report.received) })}`),
    dues.length > 0 ? dues.map(dueLine) : el("p", {}, say("nothing_due")),
    el("p", { class: "hint" }, say("expires_on", { day: day(report.expires) })));
}

/** The view of all reports that the recipient reads. */
export async function inbox() {
  const [{ reports }, { due, today }, contexts] = [await ask("GET", "/reports"), await ask("GET", "/due"), await openContexts()];
  const duesOf = (report) => due.filter((it) => it.number === report.number);
  const placeOf = (report) => duesOf(report)[0]?.day ?? "9999";
  const sorted = [...reports].sort((one, other) => placeOf(one).localeCompare(placeOf(other)) || one.number - other.number);
  return {
    title: say("reports"),
    body: [
      el("p", {}, say("today_is", { day: day(today) })),
      sorted.length > 0
        ? el("ul", { class: "plain cards" }, sorted.map((report) => card(report, duesOf(report), contexts)))
        : el("p", {}, say("no_reports")),
    ],
  };
}
