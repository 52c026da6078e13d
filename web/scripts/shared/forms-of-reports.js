// Which questionnaire a report answered. The host tells its number and version, and shows no questionnaire by these: it shows the
// newest version of each open context's. So there may be none that fits, or several.
import { answersOf, faultsOf } from "./answers.js";
import { button, el } from "./dom.js";
import { send } from "./host.js";

const fits = (view, report) => view.version === report.version && faultsOf(view.form, answersOf(report.answers)).length === 0;

/** What these contexts ask that a report can have answered, each questionnaire once. */
export async function formsOf(report, contexts) {
  const views = [];
  for (const context of contexts) views.push(await send("GET", `/contexts/${context}`));
  const fitting = views.filter((view) => fits(view, report));
  return [...new Map(fitting.map((view) => [JSON.stringify(view.form), view])).values()];
}

/** A choice between several questionnaires, by the names of their contexts. */
export const formChoice = (views, choose) =>
  el("div", { class: "row" }, views.map((view) => button(view.name, () => choose(view.form), "quiet")));
