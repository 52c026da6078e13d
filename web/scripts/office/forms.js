// A tenant's questionnaires: which there are, and the view in which one is written.
import { faultsOf } from "../shared/answers.js";
import { actForm } from "../shared/controls.js";
import { announce, button, el, notice } from "../shared/dom.js";
import { Refusal, send } from "../shared/host.js";
import { open } from "../shared/pages.js";
import { Asked, fieldControls } from "../shared/questionnaire.js";
import { ask } from "../shared/session.js";
import { say } from "../shared/texts.js";
import { FormEditor } from "./form-editor.js";

const MOST = 16;

/** The questionnaires, each with its number of versions, and a new one. */
export function formsPart({ forms }) {
  const free = Array.from({ length: MOST }, (_, place) => place + 1).find((id) => !forms.some((form) => form.id === id));
  const line = (form) => el("li", {},
    button(say("form_versions", { form: form.id, versions: form.versions }), () => open(() => formView(form.id)), "link"));
  return [
    el("ul", { class: "plain cards" }, forms.map(line)),
    free && el("div", { class: "row" }, button(say("new_form"), () => open(() => formView(free)))),
  ];
}

const emptyForm = () => ({ steps: [{ title: "", fields: [] }] });

// The newest version, which the host shows through an open context that asks it and in no other way.
async function newest(id) {
  const { contexts, forms } = await ask("GET", "/admin");
  if (!forms.some((form) => form.id === id)) return { form: emptyForm(), said: null };
  const context = contexts.find((it) => it.form === id && it.open);
  if (!context) return { form: emptyForm(), said: notice("bad", el("p", {}, say("form_not_readable"))) };
  return { form: (await send("GET", `/contexts/${context.id}`)).form, said: null };
}

// the questionnaire as a reporter would see it, with fields that come and go
function preview(form) {
  const asked = new Asked({ form, judge: (answers) => faultsOf(form, answers) });
  return form.steps.map((step) => [el("h3", {}, step.title), fieldControls(asked, step.fields).nodes]);
}

async function save(id, editor) {
  if (editor.hasFault()) throw new Refusal("form_faults");
  try {
    const { version } = await ask("PUT", `/admin/forms/${id}`, { form: editor.read() });
    return announce(say("form_saved", { version }));
  } catch (error) {
    if (error.field) editor.mark(error);
    throw error;
  }
}

async function formView(id) {
  const { form, said } = await newest(id);
  const editor = new FormEditor(form);
  const shown = el("section", { class: "editor-field", hidden: true });
  const show = () => {
    shown.replaceChildren(el("h2", {}, say("preview")), ...preview(editor.read()).flat(Infinity));
    shown.hidden = false;
  };
  return {
    title: say("form_number", { form: id }),
    body: [
      said,
      el("p", {}, say("form_note")),
      editor.box,
      actForm({
        label: say("save_version"),
        run: () => save(id, editor),
        more: [button(say("preview"), show, "quiet"), button(say("back"), () => history.back(), "quiet")],
      }),
      shown,
    ],
  };
}
