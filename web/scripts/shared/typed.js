// What stands in a questionnaire's controls, and the answers that are sent of it.
import { fieldsOf, shownFields } from "./answers.js";

// a whole number where the text is one, else the text, which the rules of answers then refuse
function wholeOf(text) {
  const digits = text.replace(/[\s'’]/g, "");
  return /^-?[0-9]+$/.test(digits) ? Number(digits) + 0 : digits;
}

const isEmpty = (value) => value === undefined || value === "" || (Array.isArray(value) && value.length === 0);

/** The answers that are typed, those of hidden fields too. */
export function answersTyped(form, typed) {
  const filled = fieldsOf(form).filter((field) => !isEmpty(typed.get(field.id)));
  return new Map(filled.map(({ id, kind }) => [id, kind === "whole" ? wholeOf(typed.get(id)) : typed.get(id)]));
}

/** The answers that are sent: those of fields that are shown. `before` are answers that the host has already. */
export function answersToSend(form, typed, before = new Map()) {
  const answers = answersTyped(form, typed);
  const shown = shownFields(form, new Map([...answers, ...before]));
  return new Map([...answers].filter(([id]) => shown.has(id)));
}
