// The words of the pages in the reader's language. Each language is one file of texts.
import de from "../../texts/de.js";
import en from "../../texts/en.js";

const languages = { en, de };
let current = navigator.languages.map((tag) => tag.slice(0, 2)).find((tag) => tag in languages) ?? "en";

/** The languages that there are, each with its own name. */
export const names = Object.fromEntries(Object.entries(languages).map(([tag, texts]) => [tag, texts.language]));

/** The tag of the language that is shown. */
export const language = () => current;

/** Shows another language from now on. */
export function choose(tag) {
  current = tag;
  document.documentElement.lang = tag;
}

/** Whether there is a text for a key. */
export const has = (key) => key in languages[current];

/** The text of a key, with values for its names in braces. */
export function say(key, values = {}) {
  const text = languages[current][key];
  if (text === undefined) throw new Error(`no text for ${key}`);
  return text.replace(/\{(\w+)\}/g, (_, name) => values[name]);
}

/** A date of the host's in the reader's own form. */
export const day = (date) =>
  new Intl.DateTimeFormat(current, { dateStyle: "long", timeZone: "UTC" }).format(new Date(`${date}T00:00:00Z`));

/** A moment of the host's in the reader's own form and time zone. */
export const moment = (seconds) =>
  new Intl.DateTimeFormat(current, { dateStyle: "medium", timeStyle: "short" }).format(new Date(seconds * 1000));

/** A number in the reader's own form. */
export const number = (value) => new Intl.NumberFormat(current).format(value);

choose(current);
