// The line on top of both pages: whose channel it is, the language, and the end of a session.
import { button, el, freshId } from "./dom.js";
import { refresh } from "./pages.js";
import { choose, language, names, say } from "./texts.js";

function languageControl(redraw) {
  const id = freshId("language");
  const change = (event) => {
    choose(event.target.value);
    redraw();
    refresh();
  };
  const options = Object.entries(names).map(([tag, name]) => el("option", { value: tag, lang: tag, selected: tag === language() }, name));
  return el("div", { class: "row" }, el("label", { for: id }, say("language_label")), el("select", { id, change }, options));
}

/** Draws the line. `logout` is what ends a session, where there is one. */
export function drawHeader(name, logout) {
  document.getElementById("top").replaceChildren(
    el("span", { class: "name" }, name),
    languageControl(() => drawHeader(name, logout)),
    ...(logout ? [button(say("log_out"), logout, "quiet")] : []),
  );
}
