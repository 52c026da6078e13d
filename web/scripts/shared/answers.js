// What the host says of a questionnaire's answers, judged in the page before they are sent. Nothing else in the pages
// knows these rules. Answers are a Map from a field's id to its answer as it is sent.

const encoder = new TextEncoder();

/** How many bytes a text has as it is sent. */
export const bytesOf = (text) => encoder.encode(text).length;

/** The most bytes of one file. */
export const FILE_BYTES = 150_000;
const NAME_BYTES = 128;
const GREATEST = 1_000_000_000_000;

/** All fields of a questionnaire in their order. */
export const fieldsOf = (form) => form.steps.flatMap((step) => step.fields);

/** Answers as a Map, from the object in which the host tells them. */
export const answersOf = (object) => new Map(Object.entries(object));

// the points that a trigger wants, and the parts that give them
function wantedBy(show) {
  if (!show) return { least: 0, parts: [] };
  if (show.score) return show.score;
  const parts = (show.any ?? show.all).map((condition) => ({ ...condition, points: 1 }));
  return { least: show.any ? 1 : parts.length, parts };
}

const holds = (answer, option) => answer === option || (Array.isArray(answer) && answer.includes(option));

/** The ids of the fields that are shown for these answers. */
export function shownFields(form, answers) {
  const shown = new Set();
  for (const field of fieldsOf(form)) {
    const { least, parts } = wantedBy(field.show);
    const met = parts.filter((part) => shown.has(part.field) && holds(answers.get(part.field), part.option));
    if (met.reduce((sum, part) => sum + part.points, 0) >= least) shown.add(field.id);
  }
  return shown;
}

function isDate(text) {
  const parts = /^([0-9]{4})-([0-9]{2})-([0-9]{2})$/.exec(text);
  if (!parts) return false;
  const [year, month, day] = parts.slice(1).map(Number);
  const date = new Date(Date.UTC(year, month - 1, day));
  return year >= 1970 && year <= 5199 && date.getUTCMonth() === month - 1 && date.getUTCDate() === day;
}

// the number of bytes that a text in base64 stands for, or null where it is none
function decodedBytes(data) {
  const unpadded = data.replace(/={1,2}$/, "");
  const rest = unpadded.length % 4;
  const padding = data.length - unpadded.length;
  if (data.length % 4 !== 0 || !/^[A-Za-z0-9+/]*$/.test(unpadded) || padding !== (4 - rest) % 4) return null;
  const ending = rest === 0 || (rest === 2 ? /[AQgw]$/ : /[AEIMQUYcgkosw048]$/).test(unpadded);
  return ending ? Math.floor((unpadded.length * 3) / 4) : null;
}

function fileFault(answer) {
  const bytes = decodedBytes(answer.data);
  const name = bytesOf(answer.name);
  if (name < 1 || name > NAME_BYTES || bytes === null) return "wrong_kind";
  return bytes > FILE_BYTES ? "too_long" : null;
}

function listFault(field, answer) {
  if (answer.length === 0 || new Set(answer).size < answer.length) return "wrong_kind";
  return answer.every((id) => field.options.some((option) => option.id === id)) ? null : "no_such_option";
}

const isFile = (answer) => typeof answer === "object" && !Array.isArray(answer);

// by kind: whether an answer is of it, and what may be wrong with one that is
const KINDS = {
  text: [(answer) => typeof answer === "string", (field, answer) => (bytesOf(answer) > field.max ? "too_long" : null)],
  choice: [
    (answer) => typeof answer === "string",
    (field, answer) => (field.options.some((option) => option.id === answer) ? null : "no_such_option"),
  ],
  multi: [Array.isArray, listFault],
  date: [(answer) => typeof answer === "string" && isDate(answer), () => null],
  check: [(answer) => typeof answer === "boolean", () => null],
  whole: [(answer) => Number.isInteger(answer) && Math.abs(answer) <= GREATEST, () => null],
  file: [isFile, (field, answer) => fileFault(answer)],
};

// what is wrong with the answer to one field, or with there being none
function fieldFault(field, answer, isShown, isMarked) {
  if (answer === undefined) {
    return isShown && field.required && (!field.identity || isMarked) ? "missing" : null;
  }
  if (!isShown) return "hidden";
  const [isOfKind, faultIn] = KINDS[field.kind];
  return isOfKind(answer) ? faultIn(field, answer) : "wrong_kind";
}

// where one text stands before another by their bytes
function byBytes(one, other) {
  const [a, b] = [encoder.encode(one), encoder.encode(other)];
  const at = a.findIndex((byte, place) => byte !== b[place]);
  return at < 0 ? a.length - b.length : a[at] - (b[at] ?? -1);
}

// all that is wrong with what was given for the fields that are looked at, the first first
function faultsIn(form, isLooked, given, answers) {
  const fields = fieldsOf(form).filter(isLooked);
  const ids = new Set(fields.map((field) => field.id));
  const unknown = [...given.keys()].filter((id) => !ids.has(id)).sort(byBytes);
  const shown = shownFields(form, answers);
  const isMarked = fields.some((field) => field.identity && given.has(field.id));
  const faults = fields.map((field) => ({
    code: fieldFault(field, given.get(field.id), shown.has(field.id), isMarked),
    field: field.id,
  }));
  return [...unknown.map((field) => ({ code: "unknown", field })), ...faults.filter((fault) => fault.code)];
}

/** What is wrong with the answers of a submission. The host names the first in its refusal. */
export const faultsOf = (form, answers) => faultsIn(form, () => true, answers, answers);

/** What is wrong with identity answers that are given after the public ones. The host names the first in its refusal. */
export const identityFaultsOf = (form, publicAnswers, given) =>
  faultsIn(form, (field) => field.identity, given, new Map([...given, ...publicAnswers]));
