// The login of those who work on reports, and what each role sees first.
import { actForm, textControl } from "../shared/controls.js";
import { el, notice } from "../shared/dom.js";
import { forgetDrafts } from "../shared/drafts.js";
import { drawHeader } from "../shared/header.js";
import { send } from "../shared/host.js";
import { begin } from "../shared/pages.js";
import { forget, login, logout, role } from "../shared/session.js";
import { say } from "../shared/texts.js";
import { admin } from "./admin.js";
import { custody } from "./custody.js";
import { inbox } from "./inbox.js";
import { learnRights } from "./rights.js";

const FIRST = { recipient: inbox, custodian: custody, admin };
let lastUser = null;

async function enter({ user, password }) {
  if (user !== lastUser) forgetDrafts();
  lastUser = user;
  await login({ user, password });
  await learnRights().catch((error) => {
    forget();
    throw error;
  });
}

async function welcome() {
  const tenant = await send("GET", "");
  drawHeader(tenant.name, leave);
  return begin(FIRST[role()]);
}

function leave() {
  logout();
  forgetDrafts();
  return begin(() => loginView("logged_out"));
}

/** The view in which one logs in; `said` is the key of what is said before. */
export async function loginView(said) {
  const tenant = await send("GET", "");
  drawHeader(tenant.name);
  const user = textControl({ name: "user", label: say("user_name"), max: 64, autocomplete: "username" });
  const password = textControl({ name: "password", label: say("password"), max: 128, type: "password", autocomplete: "current-password" });
  return {
    title: say("office_of", { name: tenant.name }),
    body: [
      said && notice(said === "session_over" ? "bad" : "good", el("p", {}, say(said))),
      actForm({ controls: [user, password], label: say("log_in"), run: enter, done: welcome }),
    ],
  };
}
