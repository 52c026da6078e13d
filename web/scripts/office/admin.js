// The administrator's views: settings, users, contexts and questionnaires.
import { actForm, numberControl, selectControl, textControl, tickControl, ticksControl } from "../shared/controls.js";
import { button, el, facts } from "../shared/dom.js";
import { begin, open, refresh } from "../shared/pages.js";
import { ask } from "../shared/session.js";
import { number, say } from "../shared/texts.js";
import { formsPart } from "./forms.js";

const ROLES = ["recipient", "custodian", "admin"];
const RIGHTS = ["delete", "postpone", "share", "transfer"];
const PARTS = { settings: settingsPart, users: usersPart, contexts: contextsPart, forms: formsPart };

const tabs = (current) => el("nav", { class: "tabs", "aria-label": say("admin_parts") }, Object.keys(PARTS).map((key) => {
  const tab = button(say(`tab_${key}`), () => begin(() => adminView(key)), "quiet");
  if (key === current) tab.setAttribute("aria-current", "page");
  return tab;
}));

async function adminView(key) {
  const view = await ask("GET", "/admin");
  return { title: say(`tab_${key}`), body: [tabs(key), PARTS[key](view)] };
}

/** The first view of an administrator. */
export const admin = () => adminView("settings");

function settingsPart({ settings, last_number: last }) {
  const name = textControl({ name: "name", label: say("tenant_name"), max: 128, value: settings.name });
  const said = (key, hint) => ({ name: key, label: say(key), hint: say(hint), value: settings[key] });
  const notice = numberControl({ ...said("notice_days", "notice_hint"), least: 0, most: 30 });
  const quota = numberControl({ ...said("quota", "quota_hint"), least: 1, most: 100_000 });
  return [
    facts([[say("offset"), say("minutes_east", { minutes: number(settings.offset) })], [say("last_number"), number(last)]]),
    el("p", { class: "hint" }, say("setup_only")),
    actForm({ controls: [name, notice, quota], label: say("save"), run: (values) => ask("PUT", "/admin/settings", values), done: refresh }),
  ];
}

// the least number that nothing in a list has, or null where all up to the greatest are taken
function freeId(list, most) {
  const taken = new Set(list.map((it) => it.id));
  return Array.from({ length: most }, (_, place) => place + 1).find((id) => !taken.has(id)) ?? null;
}

// the things of a list, each opened by its name, and how a new one is made
function listed(list, most, nameOf, view, newLabel) {
  const id = freeId(list, most);
  return [
    el("ul", { class: "plain cards" }, list.map((it) => el("li", {}, button(nameOf(it), () => open(() => view(it.id)), "link")))),
    id !== null && el("div", { class: "row" }, button(newLabel, () => open(() => view(id)))),
  ];
}

function usersPart({ users }) {
  const roleOf = (user) => [say(`role_${user.role}`), user.enabled ? [] : say("disabled")].flat().join(", ");
  const nameOf = (user) => `${user.id}: ${user.name} (${roleOf(user)})`;
  return listed(users, 256, nameOf, userView, say("new_user"));
}

async function userView(id) {
  const { users } = await ask("GET", "/admin");
  const found = users.find((it) => it.id === id);
  const user = found ?? { name: "", role: "recipient", enabled: true, may: [] };
  const run = ({ password, ...values }) => ask("PUT", `/admin/users/${id}`, password === "" ? values : { ...values, password });
  const title = say(found ? "user_number" : "new_user_number", { user: id });
  return thingView(title, userControls(user, !found), run, "users", { name_taken: "name", role_fixed: "role" });
}

function userControls(user, isNew) {
  const roles = ROLES.map((key) => [key, say(`role_${key}`)]);
  const rights = RIGHTS.map((key) => [key, say(`right_${key}`)]);
  const password = { label: say("password"), hint: isNew ? null : say("password_hint"), required: isNew };
  return [
    textControl({ name: "name", label: say("user_name"), max: 64, value: user.name }),
    selectControl({ name: "role", label: say("role"), hint: say("role_hint"), options: roles, value: user.role }),
    tickControl({ name: "enabled", label: say("enabled"), hint: say("enabled_hint"), value: user.enabled }),
    ticksControl({ name: "may", label: say("rights"), hint: say("rights_hint"), options: rights, value: user.may }),
    textControl({ name: "password", ...password, max: 128, type: "password", autocomplete: "new-password" }),
  ];
}

// a view in which one thing is changed, and which then goes back to the list
const thingView = (title, controls, run, key, marks) => ({
  title,
  body: [
    actForm({
      controls,
      label: say("save"),
      run,
      marks,
      done: () => begin(() => adminView(key)),
      more: button(say("back"), () => history.back(), "quiet"),
    }),
  ],
});

function contextsPart({ contexts }) {
  const nameOf = (context) => `${context.id}: ${context.name}${context.open ? "" : ` (${say("closed")})`}`;
  return listed(contexts, 64, nameOf, contextView, say("new_context"));
}

async function contextView(id) {
  const { contexts, forms, users } = await ask("GET", "/admin");
  const found = contexts.find((it) => it.id === id);
  const context = found ?? { name: "", form: forms[0]?.id, open: true, recipients: [], retention: 365 };
  const recipients = users.filter((user) => user.role === "recipient").map((user) => [user.id, `${user.id}: ${user.name}`]);
  const questionnaires = forms.map((it) => [String(it.id), say("form_number", { form: it.id })]);
  const days = { label: say("retention"), hint: say("retention_hint"), value: context.retention };
  const controls = [
    textControl({ name: "name", label: say("context_name"), max: 128, value: context.name }),
    selectControl({ name: "form", label: say("form"), options: questionnaires, value: String(context.form) }),
    tickControl({ name: "open", label: say("context_open"), hint: say("context_open_hint"), value: context.open }),
    ticksControl({ name: "recipients", label: say("recipients"), options: recipients, value: context.recipients, required: true, most: 32 }),
    numberControl({ name: "retention", ...days, least: 1, most: 3650 }),
  ];
  const run = (values) => ask("PUT", `/admin/contexts/${id}`, { ...values, form: Number(values.form) });
  return thingView(say(found ? "context_number" : "new_context_number", { context: id }), controls, run, "contexts");
}
