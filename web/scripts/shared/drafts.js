// What was typed and not sent yet. It is kept in the page while views change, and forgotten at a logout.

const kept = new Map();

/** The text that was typed under a name. */
export const draftOf = (name) => kept.get(name) ?? "";

/** Keeps what was typed under a name, until it is sent. */
export function keepDraft(name, text) {
  if (text === "") kept.delete(name);
  else kept.set(name, text);
}

/** Forgets all that was typed. */
export const forgetDrafts = () => kept.clear();
