// Which view the page shows. Views are functions that give a title and elements; the browser's Back goes to the view before.
import { announce, button, el, hush } from "./dom.js";
import { Refusal } from "./host.js";
import { wordsFor } from "./refusals.js";
import { say } from "./texts.js";

const SLOW = 2_000;
const main = document.getElementById("main");
let views = [];
let here = -1;
let turn = 0;
let expired = () => {};

/** Sets what is done where the host no longer has the session. */
export function whenExpired(act) {
  expired = act;
}

/** Goes to where one logs in again. */
export const expire = () => expired();

/** Does something that may take long, and says so where it does. */
export async function patiently(work) {
  const slow = setTimeout(() => announce(say("still_waiting")), SLOW);
  try {
    return await work();
  } finally {
    clearTimeout(slow);
  }
}

function failure(error) {
  if (!(error instanceof Refusal)) throw error;
  return {
    title: say("cannot_show"),
    body: [el("p", { role: "alert" }, wordsFor(error)), button(say("try_again"), refresh)],
  };
}

async function pageOf(view) {
  try {
    return await patiently(view);
  } catch (error) {
    if (error.code !== "no_session") return failure(error);
    expired();
    return null;
  }
}

/** Shows the present view anew, with what the host says now. */
export async function refresh() {
  const mine = (turn += 1);
  main.setAttribute("aria-busy", "true");
  const page = await pageOf(views[here]);
  if (mine !== turn || !page) return;
  main.removeAttribute("aria-busy");
  hush();
  const heading = el("h1", { tabindex: "-1" }, page.title);
  main.replaceChildren(heading, ...page.body.flat(Infinity).filter(Boolean));
  document.title = page.title;
  scrollTo(0, 0);
  (page.focus || heading).focus();
}

/** Goes on to a view. */
export function open(view) {
  views = [...views.slice(0, here + 1), view];
  here += 1;
  history.pushState({ here }, "");
  return refresh();
}

/** Shows a view in the place of all views before, so that none of them comes back. */
export function begin(view) {
  views = [view];
  here = 0;
  history.replaceState({ here }, "");
  return refresh();
}

addEventListener("popstate", (event) => {
  here = Math.min(event.state?.here ?? 0, views.length - 1);
  refresh();
});
