// Writes a questionnaire: its steps, and the fields of each. What is wrong with it the host judges.
import { textControl } from "../shared/controls.js";
import { button, el } from "../shared/dom.js";
import { wordsFor } from "../shared/refusals.js";
import { say } from "../shared/texts.js";
import { fieldEditor, freshField } from "./field-editor.js";

/** What is written stands in controls; `read` gives it as it is sent. */
export class FormEditor {
  constructor(form) {
    this.box = el("div");
    this.draw(form);
  }

  /** The questionnaire as it is sent. */
  read() {
    return { steps: this.steps.map(({ title, fields }) => ({ title: title.value(), fields: fields.map((field) => field.read()) })) };
  }

  /** Marks each control that cannot be sent, moves to the first, and tells whether there is one. */
  hasFault() {
    const controls = this.steps.flatMap(({ title, fields }) => [title, ...fields.flatMap((field) => field.controls())]);
    const faulty = controls.filter((control) => {
      const words = control.fault();
      control.mark(words);
      return words !== "";
    });
    faulty[0]?.input.focus();
    return faulty.length > 0;
  }

  /** Shows what the host refused, at its field; of two of one id it is the later. */
  mark(refusal) {
    const field = this.steps.flatMap((step) => step.fields).findLast((it) => it.read().id === refusal.field);
    field?.mark(wordsFor(refusal));
  }

  // changes the questionnaire, draws it anew and moves to where `change` says
  change(change) {
    const form = this.read();
    const [place, at] = change(form.steps) ?? [];
    this.draw(form);
    const step = this.steps[place];
    (step?.fields[at] ?? step)?.focus();
  }

  draw(form) {
    const earlier = [];
    this.steps = form.steps.map((step, place) => this.drawStep(step, place, earlier));
    const add = () => this.change((steps) => [steps.push({ title: "", fields: [] }) - 1]);
    this.box.replaceChildren(
      ...this.steps.map((step) => step.box),
      el("div", { class: "row" }, button(say("add_step"), add, "quiet")),
    );
  }

  drawStep(step, place, earlier) {
    const title = textControl({ name: `step-${place}`, label: say("step_title", { place: place + 1 }), max: 256, value: step.title });
    const fields = step.fields.map((field, at) => {
      const drawn = fieldEditor(field, [...earlier], this.fieldActs(place, at));
      earlier.push(field);
      return drawn;
    });
    const add = () => this.change((steps) => [place, steps[place].fields.push(freshField()) - 1]);
    const drop = () => this.change((steps) => void steps.splice(place, 1));
    const box = el("section", {},
      title.box,
      fields.map((field) => field.box),
      el("div", { class: "row" },
        button(say("add_field"), add, "quiet small"),
        step.fields.length === 0 && button(say("remove_step"), drop, "quiet small")));
    return { box, title, fields, focus: () => title.input.focus() };
  }

  // what can be done to a field in its place
  fieldActs(place, at) {
    const move = (by) => () => this.change((steps) => {
      const { fields } = steps[place];
      const to = Math.min(Math.max(at + by, 0), fields.length - 1);
      fields.splice(to, 0, ...fields.splice(at, 1));
      return [place, to];
    });
    return {
      up: move(-1),
      down: move(1),
      drop: () => this.change((steps) => {
        steps[place].fields.splice(at, 1);
        return [place];
      }),
      redraw: (change) => this.change((steps) => {
        change(steps[place].fields[at]);
        return [place, at];
      }),
      renamed: (from, to) => this.steps.forEach((step) => step.fields.forEach((field) => field.rename(from, to))),
    };
  }
}
