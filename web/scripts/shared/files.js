// Files that are answers: read from the reader's machine, and given back to a reader.
import { FILE_BYTES } from "./answers.js";
import { button, el } from "./dom.js";
import { number, say } from "./texts.js";

const PICTURES = [
  ["image/png", "iVBORw0KGgo"],
  ["image/jpeg", "/9j/"],
  ["image/gif", "R0lGOD"],
];

/** A file as it is sent, or null where it is larger than the host takes. */
export async function fileAnswer(file) {
  if (file.size > FILE_BYTES) return null;
  const bytes = new Uint8Array(await file.arrayBuffer());
  const letters = Array.from(bytes, (byte) => String.fromCharCode(byte));
  return { name: file.name, data: btoa(letters.join("")) };
}

/** How large a file is, in words. */
export const sizeOf = (answer) => say("file_size", { size: number(Math.ceil((answer.data.length * 3) / 4 / 1024)) });

function blobOf(answer, type) {
  return new Blob([Uint8Array.from(atob(answer.data), (letter) => letter.charCodeAt(0))], { type });
}

function download(answer) {
  const address = URL.createObjectURL(blobOf(answer, "application/octet-stream"));
  el("a", { href: address, download: answer.name }).click();
  setTimeout(() => URL.revokeObjectURL(address), 60_000);
}

// a picture, shown once it is asked for
function preview(answer, type) {
  const place = el("div");
  const press = button(say("show_picture"), () => {
    const address = URL.createObjectURL(blobOf(answer, type));
    place.replaceChildren(el("img", { class: "preview", src: address, alt: answer.name, load: () => URL.revokeObjectURL(address) }));
    press.remove();
  }, "quiet small");
  return [press, place];
}

/** A file of a report: its name, and what can be done with it. */
export function shownFile(answer) {
  const picture = PICTURES.find(([, start]) => answer.data.startsWith(start));
  return el(
    "div",
    {},
    `${answer.name} (${sizeOf(answer)})`,
    el("div", { class: "row" }, button(say("save_file"), () => download(answer), "quiet small"), picture && preview(answer, picture[0])),
  );
}
