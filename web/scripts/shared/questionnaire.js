// A questionnaire that is asked step by step. Which fields are shown, and what is wrong, the rules of answers say.
import { fieldsOf, shownFields } from "./answers.js";
import { announce, button, el, notice } from "./dom.js";
import { fieldControl } from "./fields.js";
import { Refusal } from "./host.js";
import { open } from "./pages.js";
import { shownAnswers } from "./shown-answers.js";
import { say } from "./texts.js";
import { answersToSend, answersTyped } from "./typed.js";

/**
 * What is asked: `form`, the Map `typed`, `asks(field)` for the fields that are asked, `before` for answers that the host has,
 * `judge(answers)` for what is wrong, and `review(asked)`, the view after the last step.
 */
export class Asked {
  constructor({ form, asks = () => true, before = new Map(), judge, review }) {
    Object.assign(this, { form, asks, before, judge, review, typed: new Map(), refused: new Map() });
  }

  /** The ids of the fields that are shown now. */
  shown() {
    return shownFields(this.form, new Map([...answersTyped(this.form, this.typed), ...this.before]));
  }

  /** The answers as they are sent. */
  answers() {
    return answersToSend(this.form, this.typed, this.before);
  }

  /** The places of the steps in which something is asked now. */
  places() {
    const shown = this.shown();
    const isAsked = (field) => this.asks(field) && shown.has(field.id);
    return this.form.steps.map((step, place) => (step.fields.some(isAsked) ? place : -1)).filter((place) => place >= 0);
  }

  /** Goes to where a field is asked, and marks what is wrong there. One that is not asked here comes of a newer questionnaire. */
  goTo(id) {
    const place = this.form.steps.findIndex((step) => step.fields.some((field) => field.id === id));
    if (place < 0) throw new Refusal("unknown");
    return open(() => stepView(this, place, true));
  }

  /** Keeps what the host refused until that field is changed, and goes there. */
  refuse({ field, code }) {
    this.refused.set(field, code);
    return this.goTo(field);
  }
}

/** Goes to a step of what is asked. */
export const openStep = (asked, place) => open(() => stepView(asked, place));

/** Goes to the first step of what is asked; where nothing is, to the last look. */
export function openFirstStep(asked) {
  const [first] = asked.places();
  return first === undefined ? open(() => asked.review(asked)) : openStep(asked, first);
}

// fields one after another; those that are identity stand in a box that says so before they are asked
function boxed(controls) {
  const boxes = [];
  for (const control of controls) {
    const last = boxes.at(-1);
    if (last && last.identity === control.field.identity) last.controls.push(control);
    else boxes.push({ identity: control.field.identity, controls: [control] });
  }
  return boxes.map(({ identity, controls: inside }) => {
    const nodes = inside.map((control) => control.box);
    const heading = [el("h3", {}, say("identity_heading")), el("p", {}, say("identity_note"))];
    return { controls: inside, node: el("section", identity ? { class: "identity" } : {}, identity && heading, nodes) };
  });
}

/** The controls of some fields, which come and go as their triggers are met, and which write into the Map `asked.typed`. */
export function fieldControls(asked, fields) {
  const controls = fields.map((field, place) =>
    fieldControl(field, asked.typed.get(field.id), (value) => {
      asked.typed.set(field.id, value);
      asked.refused.delete(field.id);
      controls[place].mark("");
      update(true);
    }),
  );
  const boxes = boxed(controls);
  function update(isTold) {
    const shown = asked.shown();
    const fresh = controls.filter((it) => it.box.hidden && shown.has(it.field.id));
    controls.forEach((it) => (it.box.hidden = !shown.has(it.field.id)));
    boxes.forEach((it) => (it.node.hidden = it.controls.every((control) => control.box.hidden)));
    if (isTold && fresh.length > 0) announce(say("more_questions"));
  }
  update(false);
  return { controls, nodes: boxes.map((it) => it.node) };
}

// marks what is wrong in these controls and gives the first that is
function markFaults(asked, controls) {
  const shown = asked.shown();
  const refused = [...asked.refused].filter(([id]) => shown.has(id));
  const faults = new Map([...asked.judge(asked.answers()).map((it) => [it.field, it.code]), ...refused]);
  controls.forEach((control) => control.mark(faults.get(control.field.id) ?? ""));
  return controls.find((control) => faults.has(control.field.id));
}

function stepView(asked, place, isMarked = false) {
  const step = asked.form.steps[place];
  const { controls, nodes } = fieldControls(asked, step.fields.filter(asked.asks));
  const places = asked.places();
  function go(event) {
    event.preventDefault();
    const faulty = markFaults(asked, controls);
    if (faulty) return faulty.focus();
    const next = asked.places().find((it) => it > place);
    return next === undefined ? open(() => asked.review(asked)) : openStep(asked, next);
  }
  return {
    title: step.title,
    focus: isMarked && markFaults(asked, controls)?.box.querySelector("input, textarea, select"),
    body: [
      el("p", { class: "hint" }, say("step_of", { place: places.indexOf(place) + 1, count: places.length })),
      el("form", { submit: go, novalidate: true }, nodes, el("div", { class: "row" },
        el("button", { type: "submit" }, say("next")),
        button(say("back"), () => history.back(), "quiet"))),
    ],
  };
}

/** What will be sent, by step, the identity apart; each step can be changed. */
export function reviewed(asked) {
  const answers = asked.answers();
  const isIdentity = new Set(fieldsOf(asked.form).filter((field) => field.identity).map((field) => field.id));
  const parts = [false, true].map((identity) => new Map([...answers].filter(([id]) => isIdentity.has(id) === identity)));
  const changes = asked.places().map((place) =>
    button(say("change_step", { step: asked.form.steps[place].title }), () => openStep(asked, place), "quiet small"));
  return [
    parts[0].size > 0 && shownAnswers(asked.form, parts[0]),
    el("section", { class: "identity" },
      el("h3", {}, say("identity_heading")),
      parts[1].size > 0 ? shownAnswers(asked.form, parts[1]) : el("p", {}, say("identity_not_given"))),
    el("div", { class: "row" }, changes),
  ];
}

/** Where what is asked cannot be sent as it stands: the first fault, in words. */
export function firstFault(asked) {
  const fault = asked.judge(asked.answers())[0];
  return fault && notice("bad", el("p", {}, say("not_ready")), button(say("go_to_fault"), () => asked.goTo(fault.field)));
}
