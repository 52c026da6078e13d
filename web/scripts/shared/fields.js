// The controls of a questionnaire's fields, one for each of the seven kinds. Each writes what is typed into a Map.
import { FILE_BYTES } from "./answers.js";
import { button, el } from "./dom.js";
import { fileAnswer, sizeOf } from "./files.js";
import { number, say } from "./texts.js";

const LONG_TEXT = 600;

// one input with a label of its own; `read` gives its value
function single(field, parts, input, write) {
  Object.assign(input, { id: parts.id });
  input.setAttribute("aria-describedby", parts.told);
  if (field.required) input.setAttribute("aria-required", "true");
  input.addEventListener("input", () => write(input.value));
  return { content: [el("label", { for: parts.id }, parts.label), parts.notes, input], first: input };
}

function text(field, typed, parts, write) {
  const input = field.max > LONG_TEXT ? el("textarea", { rows: 5 }) : el("input", { type: "text", autocomplete: "off" });
  input.value = typed ?? "";
  return single(field, parts, input, write);
}

function whole(field, typed, parts, write) {
  const input = el("input", { type: "text", inputmode: "numeric", autocomplete: "off", class: "short" });
  input.value = typed ?? "";
  return single(field, parts, input, write);
}

function date(field, typed, parts, write) {
  const input = el("input", { type: "date", min: "1970-01-01", max: "5199-12-31" });
  input.value = typed ?? "";
  return single(field, parts, input, write);
}

// radios or boxes under one legend
function group(type, field, parts, options, isChosen, change) {
  const lines = options.map(([value, label], place) => {
    const id = `${parts.id}-${place}`;
    const input = el("input", { type, id, name: parts.id, value, checked: isChosen(value), change: (event) => change(value, event.target.checked) });
    return el("label", { class: "choice", for: id }, input, label);
  });
  const role = type === "radio" ? "radiogroup" : "group";
  const set = el(
    "fieldset",
    { role, "aria-describedby": parts.told, "aria-required": type === "radio" && field.required ? "true" : null },
    el("legend", {}, parts.label),
    parts.notes,
    lines,
  );
  return { content: [set], first: lines[0]?.querySelector("input"), set };
}

const withNone = (field, options) => (field.required ? options : [...options, ["", say("no_answer")]]);
const named = (field) => field.options.map((option) => [option.id, option.label]);

function choice(field, typed, parts, write) {
  return group("radio", field, parts, withNone(field, named(field)), (value) => value === (typed ?? null), write);
}

function multi(field, typed, parts, write) {
  const chosen = new Set(typed);
  const change = (value, isChosen) => {
    if (isChosen) chosen.add(value);
    else chosen.delete(value);
    write([...chosen]);
  };
  return group("checkbox", field, parts, named(field), (value) => chosen.has(value), change);
}

function check(field, typed, parts, write) {
  const options = withNone(field, [["true", say("yes")], ["false", say("no")]]);
  const change = (value) => write(value === "" ? "" : value === "true");
  return group("radio", field, parts, options, (value) => value === String(typed), change);
}

function file(field, typed, parts, write, tell) {
  const input = el("input", { type: "file" });
  const chosen = el("p", { class: "hint" });
  const drop = button(say("remove_file"), () => put(undefined), "quiet small");
  function show(answer) {
    chosen.textContent = answer ? say("file_chosen", { name: answer.name, size: sizeOf(answer) }) : "";
    drop.hidden = !answer;
  }
  function put(answer) {
    if (!answer) input.value = "";
    show(answer);
    write(answer ?? "");
  }
  const made = single(field, parts, input, () => {});
  input.addEventListener("change", async () => {
    if (input.files.length === 0) return;
    const answer = await fileAnswer(input.files[0]);
    put(answer ?? undefined);
    tell(answer ? "" : "too_long");
  });
  show(typed);
  return { ...made, content: [...made.content, chosen, drop] };
}

const KINDS = { text, choice, multi, date, check, whole, file };

const HINTS = {
  date: () => say("hint_date"),
  whole: () => say("hint_whole"),
  file: () => say("hint_file", { size: number(FILE_BYTES / 1000) }),
  multi: () => say("hint_multi"),
};

/** The words for what is wrong with the answer to a field. */
export function faultWords(field, code) {
  if (code === "wrong_kind") return say(`fault_wrong_kind_${field.kind}`);
  if (code === "too_long" && field.kind === "file") return say("fault_too_long_file", { size: number(FILE_BYTES / 1000) });
  if (code === "too_long") return say("fault_too_long_text", { max: number(field.max) });
  return say(`fault_${code}`);
}

/** The control of a field. `change` hears what is typed; `mark` shows a fault by its code, or none for an empty one. */
export function fieldControl(field, typed, change) {
  const id = `field-${field.id}`;
  const hint = HINTS[field.kind]?.();
  const fault = el("p", { class: "fault", id: `${id}-fault`, hidden: true });
  const besides = field.required ? field.identity && say("needed_with_identity") : say("optional");
  const label = [field.label, besides && el("span", { class: "required" }, ` ${besides}`)];
  const notes = [hint && el("p", { class: "hint", id: `${id}-hint` }, hint), fault];
  const box = el("div", { class: "field", "data-field": field.id });
  function mark(code) {
    fault.textContent = code ? faultWords(field, code) : "";
    fault.hidden = !code;
    box.classList.toggle("faulty", Boolean(code));
    const target = made.set ?? made.first;
    if (code) target.setAttribute("aria-invalid", "true");
    else target.removeAttribute("aria-invalid");
  }
  const told = hint ? `${id}-hint ${fault.id}` : fault.id;
  const made = KINDS[field.kind](field, typed, { id, label, notes, told }, change, mark);
  box.append(...made.content.flat(Infinity).filter(Boolean));
  return { field, box, mark, focus: () => made.first.focus() };
}
