// Writes when a field is shown: always, or by options of earlier fields, which may score points.
import { numberControl, selectControl } from "../shared/controls.js";
import { button, el } from "../shared/dom.js";
import { say } from "../shared/texts.js";

const MODES = ["always", "any", "all", "score"];
const MOST = 16;

const modeOf = (show) => (show ? Object.keys(show)[0] : "always");
const partsOf = (show) => (show?.score ? show.score.parts : (show?.any ?? show?.all ?? []));
const nameOf = ({ field, option }) => `${field} ${option}`;

// `show` as it is sent; left out where the field is always shown
function showOf(mode, parts, least) {
  if (mode === "always") return undefined;
  if (mode === "score") return { score: { least, parts: parts.map((part) => ({ points: 1, ...part })) } };
  return { [mode]: parts.map(({ field, option }) => ({ field, option })) };
}

// every option that a condition can name, and the one that it names now, though it may be gone
function choices(earlier, part) {
  const found = earlier.flatMap((field) =>
    (field.options ?? []).map((option) => [nameOf({ field: field.id, option: option.id }), `${field.label}: ${option.label}`]));
  const isThere = found.some(([name]) => name === nameOf(part));
  return isThere ? found : [[nameOf(part), say("condition_gone", { name: nameOf(part) })], ...found];
}

// one condition: the option it names, and its points where they count
function line(part, mode, earlier, drop) {
  const choice = selectControl({ name: "condition", label: say("condition"), options: choices(earlier, part), value: nameOf(part) });
  const points = mode === "score" && numberControl({ name: "points", label: say("points"), least: 1, most: 1000, value: part.points ?? 1 });
  const remove = el("div", { class: "field" }, button(say("remove_condition"), drop, "quiet small"));
  const box = el("div", { class: "condition" }, choice.box, points && points.box, remove);
  function read() {
    const [field, option] = choice.value().split(" ");
    return { field, option, ...(points ? { points: points.value() } : {}) };
  }
  function rename(from, to) {
    for (const it of choice.input.options) {
      const [field, option] = it.value.split(" ");
      if (field === from) it.value = nameOf({ field: to, option });
    }
  }
  return { box, read, rename, controls: points ? [points] : [] };
}

/** The controls for when a field is shown. `redraw` draws the field anew with another rule. */
export function conditionEditor(show, earlier, redraw) {
  const mode = modeOf(show);
  const [first] = earlier.flatMap((field) => (field.options ?? []).map((option) => ({ field: field.id, option: option.id })));
  const modes = first || mode !== "always" ? MODES : ["always"];
  const options = modes.map((key) => [key, say(`show_${key}`)]);
  const hint = say(first ? "field_show_hint" : "field_show_none");
  const choice = selectControl({ name: "show", label: say("field_show"), hint, options, value: mode });
  const least = mode === "score" && numberControl({ name: "least", label: say("least"), least: 1, most: 16_000, value: show.score.least });
  const lines = partsOf(show).map((part, at) => line(part, mode, earlier, () => redraw(changed(parts().toSpliced(at, 1)))));
  const parts = () => lines.map((it) => it.read());
  const changed = (next, to = choice.value()) => showOf(next.length > 0 ? to : "always", next, least ? least.value() : 1);
  choice.input.addEventListener("change", () => redraw(changed(lines.length > 0 ? parts() : [first])));
  const add = () => redraw(changed([...parts(), first]));
  return {
    box: el("div", {}, choice.box, least && least.box, lines.map((it) => it.box),
      mode !== "always" && first && lines.length < MOST && el("div", { class: "row" }, button(say("add_condition"), add, "quiet small"))),
    controls: [...(least ? [least] : []), ...lines.flatMap((it) => it.controls)],
    read: () => showOf(mode, parts(), least && least.value()),
    rename: (from, to) => lines.forEach((it) => it.rename(from, to)),
  };
}
