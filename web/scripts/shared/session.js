// Who is logged in. A session lives in this page alone, and ends at the host when the page goes.
import { send } from "./host.js";
import { tenant } from "./tenant.js";

let held = null;

/** The role of who is logged in, or null. */
export const role = () => held?.role ?? null;

/** Sends a request as the one who is logged in. */
export const ask = (method, path, body) => send(method, path, { body, session: held?.session });

/** Logs in with a name and a password, or with a receipt. */
export async function login(body) {
  held = await send("POST", "/sessions", { body });
}

/** Ends the session here, and at the host as far as that can be reached. */
export function logout() {
  if (!held) return;
  const { session } = held;
  held = null;
  fetch(`/t/${tenant}/sessions`, {
    method: "DELETE",
    headers: { "X-Session": session },
    credentials: "omit",
    keepalive: true,
  }).catch(() => {});
}

/** Forgets a session that the host no longer has. */
export function forget() {
  held = null;
}

addEventListener("pagehide", logout);
addEventListener("pageshow", (event) => {
  if (event.persisted) location.reload();
});
