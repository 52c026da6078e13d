// The host's interface: one request, and its reply or what stands in the reply's place.
import { bytesOf } from "./answers.js";
import { tenant } from "./tenant.js";

const LONGEST_WAIT = 90_000;

/** The most bytes that the host reads of one request. */
export const REQUEST_BYTES = 262_144;

/** What was answered in place of what was asked: a code of the host's, or one of the way to it. */
export class Refusal extends Error {
  constructor(code, { field = "", kept = null } = {}) {
    super(code);
    Object.assign(this, { code, field, kept });
  }
}

// What a reply means that is not the host's: the proxy's own.
const PROXY_CODES = { 413: "too_large", 429: "too_often" };

function refusalOf(status, body) {
  if (typeof body?.code === "string") return new Refusal(body.code, body);
  return new Refusal(PROXY_CODES[status] ?? "host_away");
}

async function bodyOf(reply) {
  const text = await reply.text();
  try {
    return JSON.parse(text);
  } catch {
    return null;
  }
}

/** Sends one request to the tenant's part of the host and gives the reply's body. */
export async function send(method, path, { body, session } = {}) {
  const text = body === undefined ? undefined : JSON.stringify(body);
  if (text !== undefined && bytesOf(text) > REQUEST_BYTES) throw new Refusal("too_large");
  let reply;
  let told;
  try {
    reply = await fetch(`/t/${tenant}${path}`, {
      method,
      headers: session ? { "X-Session": session } : {},
      body: text,
      cache: "no-store",
      credentials: "omit",
      redirect: "error",
      signal: AbortSignal.timeout(LONGEST_WAIT),
    });
    told = await bodyOf(reply);
  } catch {
    throw new Refusal("lost");
  }
  if (!reply.ok || told === null) throw refusalOf(reply.status, told);
  return told;
}
