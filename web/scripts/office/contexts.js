// The contexts that are open, by name. Of a closed one the host tells a recipient the number alone.
import { send } from "../shared/host.js";
import { say } from "../shared/texts.js";

/** The open contexts, and a name for each that a report can be in. */
export async function openContexts() {
  const { contexts } = await send("GET", "");
  const names = new Map(contexts.map((context) => [context.id, context.name]));
  return { list: contexts, nameOf: (id) => names.get(id) ?? say("context_number", { context: id }) };
}
