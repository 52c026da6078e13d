// What a refusal means, in words.
import { day, has, number, say } from "./texts.js";

const isDay = (kept) => /^\d{4}-\d{2}-\d{2}$/.test(kept);

// what stands already: a number, a day, or the name of a state, a status or a role
function shown(kept) {
  if (typeof kept !== "string") return typeof kept === "number" ? number(kept) : "";
  if (isDay(kept)) return day(kept);
  const key = ["state", "status", "role"].map((stem) => `${stem}_${kept}`).find(has);
  return key ? say(key) : kept;
}

/** The words for a refusal of the host, of the way to it, or of this page. */
export const wordsFor = (refusal) => say(`refused_${refusal.code}`, { kept: shown(refusal.kept) });
