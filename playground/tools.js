/** The tools: bounds of a range, and what a word says. A link may ask them: `#bounds=BASE,LEN`, `#decode=WORD`. */
const tools = (() => {
  const part = (id) => document.getElementById(id);
  const FIELDS = { bounds: ["bounds-base", "bounds-len"], decode: ["decode-word"] };
  const LINK = /^#(bounds|decode)=([0-9a-zA-Z_]{1,80})(?:,([0-9a-zA-Z]{1,80}))?$/;

  /** Answers with what stands in the fields. */
  function answer(kind) {
    const typed = FIELDS[kind].map((id) => fields.argumentOf(part(id).value));
    const { text, line } = machine[kind](...typed);
    part(`${kind}-line`).textContent = text.trimEnd() || line;
  }

  /** Does what a fragment asks of a tool. Gives whether it asks for one. */
  function ask(fragment) {
    const [, kind, ...given] = LINK.exec(fragment) ?? [];
    if (!kind) return false;
    FIELDS[kind].forEach((id, index) => {
      part(id).value = given[index] ?? "";
      part(id).dispatchEvent(new Event("input"));
    });
    answer(kind);
    part(kind).scrollIntoView({ block: "center" });
    return true;
  }

  function listen() {
    for (const [kind, ids] of Object.entries(FIELDS)) {
      part(kind).addEventListener("submit", (submit) => {
        submit.preventDefault();
        answer(kind);
      });
      for (const id of ids) fields.watch(part(id), part(`${id}-read`));
    }
  }

  return { ask, isAsked: (fragment) => LINK.test(fragment), listen };
})();
