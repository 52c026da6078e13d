// Answers as they are read: by the questions of the questionnaire, where that is known, and else by the names of the fields.
import { fieldsOf } from "./answers.js";
import { facts } from "./dom.js";
import { shownFile } from "./files.js";
import { day, number, say } from "./texts.js";

function shownAnswer(field, answer) {
  const labelOf = (id) => field?.options?.find((option) => option.id === id)?.label ?? id;
  if (Array.isArray(answer)) return answer.map(labelOf).join("\n");
  if (typeof answer === "boolean") return say(answer ? "yes" : "no");
  if (typeof answer === "number") return number(answer);
  if (typeof answer === "object") return shownFile(answer);
  if (field?.kind === "date") return day(answer);
  return field?.kind === "choice" ? labelOf(answer) : answer;
}

/** A Map of answers, in the questionnaire's order; `form` is null where none is known. */
export function shownAnswers(form, answers) {
  const fields = new Map((form ? fieldsOf(form) : []).map((field) => [field.id, field]));
  const ids = [...[...fields.keys()].filter((id) => answers.has(id)), ...[...answers.keys()].filter((id) => !fields.has(id))];
  return facts(ids.map((id) => [fields.get(id)?.label ?? id, shownAnswer(fields.get(id), answers.get(id))]), "answers");
}
