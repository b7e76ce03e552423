/**
 * Each hart's registers at a fixed place: a row for PCC and for each register that the listing names, whether or not it
 * is null, each of one line. So nothing moves from step to step.
 */
const registers = (() => {
  const { NULL, cell, element, row, table } = draw;
  const PCC = "pcc";
  const CAUSES = ["", "Tag", "Seal", "Execute", "Load", "Store", "StoreCap", "StoreLocal", "Length", "Align", "Place",
    "Fetch", "Type", "CInvoke"];

  function statusWords({ status, cause, reg }) {
    if (status !== "trapped") return status;
    return `trapped: ${CAUSES[cause]} (cause ${cause}), ${reg === 32 ? PCC : `c${reg}`}`;
  }

  /** A mark in words, and the class of its row, of a place that changed; `changed` says whether its tag went. */
  function markOf(place, changed) {
    if (!changed.has(place)) return { kind: null, mark: null };
    const lost = changed.get(place);
    const mark = element("span", { class: "mark" }, lost ? "cleared" : "changed");
    return { kind: lost ? "changed lost" : "changed", mark };
  }

  function rowsOf(name, value, place, changed, image, isFull) {
    const { kind, mark } = markOf(place, changed);
    const shown = row({ class: kind, "data-place": place }, [name, mark && " ", mark].filter(Boolean),
      ...values.cells(value, image));
    return isFull ? [shown, values.fullRow(value, image)] : [shown];
  }

  function hartPart(hart, number, names, { changed, image, note, isFull }) {
    const rows = [PCC, ...names].flatMap((name) => rowsOf(name,
      name === PCC ? hart.pcc : hart.regs[name] ?? NULL, `${number}:${name}`, changed, image, isFull));
    const status = markOf(`${number}:status`, changed);
    const heading = element("h3", { id: `hart-${number}` }, `Hart ${number} `,
      element("span", { class: `status ${hart.status}` }, statusWords(hart)),
      status.mark && " ", status.mark, element("span", { class: "note" }, note ? ` ${note}` : ""));
    return element("section", { class: "hart", "aria-labelledby": `hart-${number}` }, heading,
      table("values short", `PCC and registers of hart ${number}`, ["Register", ...values.COLUMNS], rows));
  }

  /** Draws every hart with the registers that are named. `notes` has words for those, by number, that have some. */
  function show(place, state, named, { changed, image, notes, isFull }) {
    const names = named.map((number) => `c${number}`);
    place.replaceChildren(...state.harts.map((hart, number) =>
      hartPart(hart, number, names, { changed, image, note: notes[number], isFull })));
  }

  return { CAUSES, markOf, show, statusWords };
})();
