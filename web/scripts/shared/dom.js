// Elements, made without markup in texts: what people type can never become a part of the page's code.

/**
 * Makes an element. A function is a listener for its name; `true` sets an attribute, `false` and `null` leave it out. Children that
 * are truth values or nothing are passed over.
 */
export function el(name, attributes = {}, ...children) {
  const node = document.createElement(name);
  for (const [key, value] of Object.entries(attributes)) {
    if (typeof value === "function") node.addEventListener(key, value);
    else if (value !== false && value !== null && value !== undefined) node.setAttribute(key, value === true ? "" : value);
  }
  node.append(...children.flat(Infinity).filter((child) => typeof child !== "boolean" && child !== null && child !== undefined));
  return node;
}

/** A button that does something in the page; `look` is a class of the style sheet. */
export const button = (text, click, look = "") => el("button", { type: "button", class: look, click }, text);

/** A box that says something beside the text: `bad`, `good` or plain. */
export const notice = (kind, ...children) => el("div", { class: `notice ${kind}` }, ...children);

/** A list of names and what they are; `look` is how it is laid out. */
export const facts = (pairs, look = "facts") =>
  el("dl", { class: look }, pairs.filter(Boolean).map(([name, value]) => [el("dt", {}, name), el("dd", {}, value)]));

let used = 0;

/** An id that no other element has. */
export const freshId = (stem) => `${stem}-${(used += 1)}`;

/** Says a text to those who listen to the page, and shows it for a while. */
export function announce(text) {
  const status = document.getElementById("status");
  const line = el("p", {}, text);
  status.replaceChildren(line);
  setTimeout(() => line.remove(), 4000);
}

/** Takes away what was said of a view that is gone. */
export const hush = () => document.getElementById("status").replaceChildren();
