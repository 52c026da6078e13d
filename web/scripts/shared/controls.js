// Small forms: controls with a label, one button, and what came of it.
import { bytesOf } from "./answers.js";
import { button, el, freshId } from "./dom.js";
import { draftOf, keepDraft } from "./drafts.js";
import { Refusal } from "./host.js";
import { expire, patiently } from "./pages.js";
import { wordsFor } from "./refusals.js";
import { number, say } from "./texts.js";

// a box with a label, a hint and a place for a fault round one input
function framed(input, { name, label, hint, required }) {
  const id = freshId(name);
  const fault = el("p", { class: "fault", id: `${id}-fault`, hidden: true });
  input.id = id;
  input.setAttribute("aria-describedby", hint ? `${id}-hint ${fault.id}` : fault.id);
  if (required) input.setAttribute("aria-required", "true");
  const box = el(
    "div",
    { class: "field" },
    el("label", { for: id }, label, required || el("span", { class: "required" }, ` ${say("optional")}`)),
    hint && el("p", { class: "hint", id: `${id}-hint` }, hint),
    fault,
    input,
  );
  input.addEventListener("input", () => mark(box, input, fault, ""));
  return { box, input, mark: (words) => mark(box, input, fault, words) };
}

function mark(box, input, fault, words) {
  fault.textContent = words;
  fault.hidden = words === "";
  box.classList.toggle("faulty", words !== "");
  if (words) input.setAttribute("aria-invalid", "true");
  else input.removeAttribute("aria-invalid");
}

/** A line or several lines of text, of at most `max` bytes. What is typed stays under the name `draft` until it is sent. */
export function textControl({ name, label, hint, max, lines = 1, required = true, value = "", type = "text", draft, autocomplete = "off" }) {
  const input =
    lines > 1 ? el("textarea", { rows: lines }) : el("input", { type, autocomplete, spellcheck: type === "text" ? null : "false" });
  input.value = draft ? draftOf(draft) || value : value;
  if (draft) input.addEventListener("input", () => keepDraft(draft, input.value));
  const fault = () => {
    if (required && input.value === "") return say("fault_missing");
    return bytesOf(input.value) > max ? say("fault_bytes", { max: number(max), has: number(bytesOf(input.value)) }) : "";
  };
  const sent = () => draft && keepDraft(draft, "");
  return { name, ...framed(input, { name, label, hint, required }), value: () => input.value, fault, sent };
}

/** A whole number from `least` to `most`. */
export function numberControl({ name, label, hint, least, most, value = "" }) {
  const input = el("input", { inputmode: "numeric", autocomplete: "off", class: "short" });
  input.value = value;
  const read = () => (/^[0-9]{1,10}$/.test(input.value.trim()) ? Number(input.value) : NaN);
  const isIn = (found) => found >= least && found <= most;
  const fault = () => (isIn(read()) ? "" : say("fault_range", { least: number(least), most: number(most) }));
  return { name, ...framed(input, { name, label, hint, required: true }), value: read, fault };
}

/** One of several values, each as [value, label]. */
export function selectControl({ name, label, hint, options, value }) {
  const input = el("select", {}, options.map(([key, text]) => el("option", { value: key, selected: key === value }, text)));
  return { name, ...framed(input, { name, label, hint, required: true }), value: () => input.value, fault: () => "" };
}

/** A box to tick. */
export function tickControl({ name, label, hint, value = false }) {
  const id = freshId(name);
  const input = el("input", { type: "checkbox", id, checked: value, "aria-describedby": hint ? `${id}-hint` : null });
  const box = el(
    "div",
    { class: "field" },
    el("label", { class: "choice", for: id }, input, label),
    hint && el("p", { class: "hint", id: `${id}-hint` }, hint),
  );
  return { name, box, input, value: () => input.checked, fault: () => "", mark: () => {} };
}

/** Several boxes to tick under one legend; the value is the list of what is ticked. */
export function ticksControl({ name, label, hint, options, value = [], required = false, most = options.length }) {
  const ticks = options.map(([key, text]) => {
    const input = el("input", { type: "checkbox", id: freshId(name), checked: value.includes(key) });
    return { key, input, line: el("label", { class: "choice", for: input.id }, input, text) };
  });
  const fault = el("p", { class: "fault", hidden: true });
  const notes = [hint && el("p", { class: "hint" }, hint), fault];
  const box = el("fieldset", { class: "field" }, el("legend", {}, label), notes, ticks.map((it) => it.line));
  const chosen = () => ticks.filter((it) => it.input.checked).map((it) => it.key);
  const input = ticks[0]?.input ?? box;
  return {
    name,
    box,
    input,
    value: chosen,
    fault: () => {
      if (required && chosen().length === 0) return say("fault_missing");
      return chosen().length > most ? say("fault_most", { most: number(most) }) : "";
    },
    mark: (words) => mark(box, input, fault, words),
  };
}

// marks each control that has a fault, moves to the first, and tells whether there is one
function hasFault(controls) {
  const found = controls.map((control) => [control, control.fault()]);
  found.forEach(([control, words]) => control.mark(words));
  const first = found.find(([, words]) => words !== "");
  first?.[0].input.focus();
  return Boolean(first);
}

function showRefusal(controls, alert, error, marks) {
  const name = error.field || marks[error.code];
  const control = controls.find((it) => it.name === name);
  if (control) {
    control.mark(wordsFor(error));
    control.input.focus();
  } else {
    const again = error.code === "no_session" && button(say("log_in_again"), expire);
    alert.replaceChildren(...[el("p", { class: "fault" }, wordsFor(error)), again].filter(Boolean));
  }
}

/**
 * A form that does one thing with what its controls hold, and then what is `done` after it. Where it could not, it says so in
 * words, and what was typed stays. `marks` names the control that a code of a refusal is about, where the host names none.
 */
export function actForm({ controls = [], label, run, done, look = "", more = [], marks = {} }) {
  const alert = el("div", { role: "alert" });
  const press = el("button", { type: "submit", class: look }, label);
  async function submit(event) {
    event.preventDefault();
    alert.replaceChildren();
    if (press.getAttribute("aria-disabled") || hasFault(controls)) return;
    press.setAttribute("aria-disabled", "true");
    try {
      const values = Object.fromEntries(controls.map((control) => [control.name, control.value()]));
      await patiently(() => run(values));
      controls.forEach((control) => control.sent?.());
      await done?.();
    } catch (error) {
      if (!(error instanceof Refusal)) throw error;
      showRefusal(controls, alert, error, marks);
    } finally {
      press.removeAttribute("aria-disabled");
    }
  }
  return el("form", { submit, novalidate: true }, controls.map((control) => control.box), alert, el("div", { class: "row" }, press, more));
}

/** A button that does one thing at once, with a place beside it for why it could not. */
export const actButton = (label, run, done, look = "quiet") => actForm({ label, run, done, look });

/** A button that opens what is behind it, once pressed. */
export function disclosed(label, content, look = "quiet") {
  const box = el("div", { hidden: true });
  const press = button(label, () => {
    box.replaceChildren(...[content()].flat());
    box.hidden = !box.hidden;
    press.setAttribute("aria-expanded", String(!box.hidden));
    if (!box.hidden) box.querySelector("input, textarea, select, button")?.focus();
  }, look);
  press.setAttribute("aria-expanded", "false");
  return el("div", {}, el("div", { class: "row" }, press), box);
}
