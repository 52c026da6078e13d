// Writes one field of a questionnaire.
import { numberControl, selectControl, textControl, tickControl } from "../shared/controls.js";
import { button, el } from "../shared/dom.js";
import { say } from "../shared/texts.js";
import { conditionEditor } from "./condition-editor.js";

const KINDS = ["text", "choice", "multi", "date", "check", "whole", "file"];
const LONGEST = 65_536;
const isId = (text) => /^[a-z0-9_]{1,32}$/.test(text);

/** A field that nothing was written for yet. */
export const freshField = () => ({ id: "", label: "", kind: "text", required: false, identity: false, max: 4096 });

// one option a line, its id and what is read, parted by a colon
const linesOf = (options) => options.map((option) => `${option.id}: ${option.label}`).join("\n");

function optionsOf(text) {
  const lines = text.split("\n").filter((line) => line.trim() !== "");
  return lines.map((line) => {
    const [id, ...label] = line.split(":");
    return { id: id.trim(), label: label.join(":").trim() };
  });
}

function idControl(field) {
  const control = textControl({ name: "id", label: say("field_id"), hint: say("field_id_hint"), max: 32, value: field.id });
  return { ...control, fault: () => (isId(control.value()) ? "" : say("fault_id")) };
}

function optionsControl(field) {
  const said = { label: say("field_options"), hint: say("field_options_hint"), value: linesOf(field.options ?? []) };
  const control = textControl({ name: "options", ...said, max: LONGEST, lines: 5, required: false });
  const isRight = (option) => isId(option.id) && option.label !== "";
  const fault = () => (optionsOf(control.value()).every(isRight) ? "" : say("fault_options"));
  return { ...control, fault, value: () => optionsOf(control.value()) };
}

// the control that a kind has of its own
function ownControl(field) {
  if (field.kind === "text") {
    return numberControl({ name: "max", label: say("field_max"), least: 1, most: LONGEST, value: field.max ?? 4096 });
  }
  return field.options || field.kind === "choice" || field.kind === "multi" ? optionsControl(field) : null;
}

const without = ({ id, label, kind, required, identity, show }, changed) => ({ id, label, kind, required, identity, show, ...changed });

/** The controls of a field. `earlier` are the fields before it, `acts` what can be done to it in its place. */
export function fieldEditor(field, earlier, acts) {
  const parts = {
    id: idControl(field),
    label: textControl({ name: "label", label: say("field_label"), max: 256, value: field.label }),
    kind: selectControl({ name: "kind", label: say("field_kind"), options: KINDS.map((kind) => [kind, say(`kind_${kind}`)]), value: field.kind }),
    required: tickControl({ name: "required", label: say("field_required"), value: field.required }),
    identity: tickControl({ name: "identity", label: say("field_identity"), hint: say("field_identity_hint"), value: field.identity }),
  };
  const own = ownControl(field);
  const conditions = conditionEditor(field.show, earlier, (show) => acts.redraw((it) => Object.assign(it, { show })));
  let named = field.id;
  parts.id.input.addEventListener("change", () => {
    acts.renamed(named, parts.id.value());
    named = parts.id.value();
  });
  parts.kind.input.addEventListener("change", () => acts.redraw((it) => it));
  const refused = el("p", { class: "fault", role: "alert" });
  const box = el("details", { class: "editor-field", open: field.id === "" },
    el("summary", {}, `${field.label || say("fresh_field")} (${say(`kind_${field.kind}`)}${field.identity ? `, ${say("identity")}` : ""})`),
    refused,
    Object.values(parts).map((control) => control.box), own?.box, conditions.box,
    el("div", { class: "row" },
      button(say("move_up"), acts.up, "quiet small"), button(say("move_down"), acts.down, "quiet small"),
      button(say("remove_field"), acts.drop, "quiet small")));
  const focus = () => {
    box.open = true;
    parts.id.input.focus();
  };
  return {
    box,
    focus,
    rename: conditions.rename,
    controls: () => openWhereFaulty(box, [...Object.values(parts), own, ...conditions.controls].filter(Boolean)),
    mark: (words) => {
      refused.textContent = words;
      focus();
    },
    read: () => read(parts, own, conditions),
  };
}

// controls that open the field where they have a fault, so that it can be seen
function openWhereFaulty(box, controls) {
  const mark = (control) => (words) => {
    if (words) box.open = true;
    control.mark(words);
  };
  return controls.map((control) => ({ ...control, mark: mark(control) }));
}

function read(parts, own, conditions) {
  const values = Object.fromEntries(Object.entries(parts).map(([key, control]) => [key, control.value()]));
  const takesOptions = values.kind === "choice" || values.kind === "multi";
  const options = takesOptions ? { options: own?.name === "options" ? own.value() : [] } : {};
  const max = values.kind === "text" ? { max: own?.name === "max" ? own.value() : freshField().max } : {};
  return without(values, { show: conditions.read(), ...options, ...max });
}
