/** An event in the words of its source line, and what it reads and writes as a table of short values. */
const facts = (() => {
  const { cell, element, plural, row, table } = draw;
  const KINDS = [["reads", ""], ["finds", "mem "], ["leaves", "mem "], ["sets", ""]];

  const { shorter } = values;

  /**
   * The event with the program's own words in place of the canonical ones, labels, spelling and comment, and with the line
   * of the text; and with short addresses in its reasons, of a fetch, and in the range of a sweep.
   */
  function inWords(event, { words, lineOf }) {
    if (!event) return event;
    const told = { ...event };
    if (event.line !== undefined) {
      told.instruction = words[event.line - 1] || event.instruction;
      told.line = lineOf(event.line) ?? undefined;
    }
    if (event.pc) told.instruction ??= `fetch at ${values.short(event.pc)}`;
    if (event.why) told.why = shorter(event.why);
    if (event.clears) {
      told.clears = Object.fromEntries(Object.entries(event.clears)
        .map(([name, why]) => [shorter(name), shorter(why)]));
    }
    if (event.outcome === "sweep") [told.lo, told.hi] = [event.lo, event.hi].map(values.short);
    return told;
  }

  /** Draws the facts of an event, or that there are none. */
  function show(place, event, image, isFull) {
    const rows = KINDS.flatMap(([kind, prefix]) => Object.entries(event?.[kind] ?? {}).flatMap(([name, value]) => {
      const shown = row({}, [kind], cell("owner", prefix ? `${prefix}${values.short(name)}` : name),
        ...values.cells(value, image));
      return isFull ? [shown, values.fullRow(value, image)] : [shown];
    }));
    const access = event?.at && element("p", {},
      `Accesses ${plural(event.at.bytes, "byte")} at ${values.short(event.at.address)}.`);
    const words = rows.length > 0 ? table("values short facts", `What event ${event.number} reads and writes`,
      ["Fact", "Place", ...values.COLUMNS], rows)
      : element("p", {}, event ? `Event ${event.number} reads and writes no value.` : "No step has been taken here.");
    place.replaceChildren(...[access, words].filter(Boolean));
  }

  return { inWords, show };
})();
