// What the recipient who is logged in may do. The host tells no user's rights, but it refuses for want of a right before it looks
// for the report. So each right is asked for with a report that nobody has: number 4294967295 is the last that a tenant can draw.
import { ask, role } from "../shared/session.js";

const NOBODYS = "/reports/4294967295";
const PROBES = {
  delete: ["DELETE", NOBODYS],
  postpone: ["POST", `${NOBODYS}/postponement`],
  share: ["DELETE", `${NOBODYS}/readers/1`],
  transfer: ["POST", `${NOBODYS}/transfer`, { context: 1 }],
};

let rights = new Set();

async function has(right) {
  try {
    await ask(...PROBES[right]);
  } catch (error) {
    if (error.code === "not_found") return true;
    if (error.code !== "right") throw error;
  }
  return false;
}

/** Learns the rights of the session. Those who read no reports have none. */
export async function learnRights() {
  rights = new Set();
  if (role() !== "recipient") return;
  for (const right of Object.keys(PROBES)) if (await has(right)) rights.add(right);
}

/** Whether the session has a right. */
export const may = (right) => rights.has(right);
