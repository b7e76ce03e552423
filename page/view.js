/**
 * The view of one moment of a run: harts, memory, events, the reasons, and the listing.
 *
 * It draws what it is given and works nothing out: values, facts and reasons are those of the
 * program's JSON. All text is put in as text, so nothing of a listing becomes markup.
 */
const view = (() => {
  const { NULL, VALUE_COLUMNS, cell, element, plural, row, table, valueCells } = draw;

  /** Names of a trap's cause by its number. */
  const CAUSES = [
    null, "Tag", "Seal", "Execute", "Load", "Store", "StoreCap", "StoreLocal", "Length",
    "Align", "Place", "Fetch", "Type", "CInvoke",
  ];

  const PCC_NUMBER = 32;

  /** At most so many lines of a listing, events or granules are drawn at once. */
  const MOST_LINES = 2000;
  const MOST_EVENTS = 200;
  const MOST_GRANULES = 256;

  function sameValue(one, other) {
    return one.word === other.word && one.tag === other.tag && one.from === other.from;
  }

  // ------------------------------------------------------------------- states

  /**
   * The places where two states differ: `H:cN`, `H:pcc`, `H:status`, `mem ADDRESS`. The value says
   * whether the place lost its tag.
   */
  function differences(before, after) {
    const places = new Map();
    const compare = (place, old = NULL, now = NULL) => {
      if (!sameValue(old, now)) places.set(place, old.tag && !now.tag);
    };
    const all = (one, other) => new Set([...Object.keys(one), ...Object.keys(other)]);
    after.harts.forEach((hart, number) => {
      const old = before.harts[number];
      compare(`${number}:pcc`, old.pcc, hart.pcc);
      for (const name of all(old.regs, hart.regs)) {
        compare(`${number}:${name}`, old.regs[name], hart.regs[name]);
      }
      if (old.status !== hart.status) places.set(`${number}:status`, false);
    });
    for (const address of all(before.mem, after.mem)) {
      compare(`mem ${address}`, before.mem[address], after.mem[address]);
    }
    return places;
  }

  /** A mark in words beside a name, and the class of its row. */
  function changeOf(place, changed) {
    if (!changed.has(place)) return { kind: null, mark: null };
    const lost = changed.get(place);
    return {
      kind: lost ? "changed lost" : "changed",
      mark: element("span", { class: "mark" }, lost ? "tag cleared" : "changed"),
    };
  }

  function registerNumber(name) {
    return name === "pcc" ? PCC_NUMBER : Number(name.slice(1));
  }

  function registerName(number) {
    return number === PCC_NUMBER ? "pcc" : `c${number}`;
  }

  function statusWords(hart) {
    if (hart.status !== "trapped") return hart.status;
    return `trapped: ${CAUSES[hart.cause]} (cause ${hart.cause}), ${registerName(hart.reg)}`;
  }

  function hartPart(hart, number, state, changed, image, note) {
    const names = new Set(Object.keys(hart.regs));
    for (const place of changed.keys()) {
      const [owner, name] = place.split(":");
      if (owner === String(number) && /^c\d+$/.test(name)) names.add(name);
    }
    const listed = [...names].sort((a, b) => registerNumber(a) - registerNumber(b));
    const rows = ["pcc", ...listed].map((name) => {
      const value = name === "pcc" ? hart.pcc : hart.regs[name] ?? NULL;
      const { kind, mark } = changeOf(`${number}:${name}`, changed);
      return row({ class: kind, "data-place": `${number}:${name}` }, [name, mark],
        ...valueCells(value, image));
    });
    const status = changeOf(`${number}:status`, changed);
    const heading = element("h3", { id: `hart-${number}` }, `Hart ${number} `,
      element("span", { class: `status ${hart.status}` }, statusWords(hart)),
      status.mark && " ", status.mark, note && element("span", { class: "note" }, ` ${note}`));
    return element("section", { class: "hart", "aria-labelledby": `hart-${number}` }, heading,
      table("values", `PCC and registers of hart ${number} that are not null`,
        ["Register", ...VALUE_COLUMNS], rows));
  }

  /** Draws every hart. `notes` has words for those, by number, that have some. */
  function showHarts(place, state, changed, image, notes) {
    place.replaceChildren(...state.harts.map((hart, number) =>
      hartPart(hart, number, state, changed, image, notes[number])));
  }

  /** Draws the granules that are tagged or not zero, and those that changed. */
  function showMemory(place, state, changed, image, focus) {
    const addresses = new Set(Object.keys(state.mem));
    for (const changedPlace of changed.keys()) {
      if (changedPlace.startsWith("mem ")) addresses.add(changedPlace.slice(4));
    }
    const all = [...addresses].sort();
    if (all.length === 0) {
      place.replaceChildren(element("p", {}, "Memory is empty: no granule is tagged or not 0."));
      return;
    }
    const at = Math.max(all.findIndex((address) => focus !== null && address >= focus), 0);
    const first = Math.max(0, Math.min(at - MOST_GRANULES / 2, all.length - MOST_GRANULES));
    const shown = all.slice(first, first + MOST_GRANULES);
    const rows = shown.map((address) => {
      const { kind, mark } = changeOf(`mem ${address}`, changed);
      return row({ class: kind, "data-place": `mem ${address}` },
        [element("code", {}, address), mark], ...valueCells(state.mem[address] ?? NULL, image));
    });
    const caption = shown.length === all.length
      ? "Granules that are tagged or not 0"
      : `Granules ${first + 1} to ${first + shown.length} of the ${all.length.toLocaleString("en")}`
        + " that are tagged or not 0";
    place.replaceChildren(table("values", caption, ["Granule", ...VALUE_COLUMNS], rows));
  }

  // -------------------------------------------------------------------- events

  function isMarked(event) {
    return event.outcome === "trap" || event.clears !== undefined;
  }

  /** What came of an event, in a few words. */
  function outcomeWords(event) {
    const cleared = Object.keys(event.clears ?? {});
    if (event.outcome === "sweep") return `sweep, ${plural(event.cleared, "tag")} cleared`;
    if (event.outcome === "trap") return `trap ${CAUSES[event.cause]}`;
    return cleared.length ? `${event.outcome}, tag of ${cleared.join(", ")} cleared` : event.outcome;
  }

  function eventWords(event) {
    if (event.outcome === "sweep") return `sweep of bases from ${event.lo} to ${event.hi}`;
    return event.instruction ?? `fetch at ${event.pc}`;
  }

  /** A row of the list of events, whose button alone takes the focus. */
  function eventRow(event, index) {
    const button = element("button", { type: "button", tabindex: -1, "data-index": index },
      String(event.number));
    return row({ class: isMarked(event) ? "marked" : null, "data-index": index }, [button],
      cell("owner", event.hart === undefined ? "all" : String(event.hart)),
      cell("instruction", element("code", {}, eventWords(event))),
      cell("outcome", isMarked(event) ? "\u26a0 " : "", outcomeWords(event)));
  }

  /**
   * The list of events, of which one is current. Of a long one only a part is drawn. `pick` is
   * called with an event's index.
   */
  function eventList(place, caption, pick) {
    let events = [];
    let listed = [];
    let drawn = [];
    let current = -1;

    const buttonOf = (index) => place.querySelector(`button[data-index="${index}"]`);

    /** Draws the part of the list around a place in it. */
    function draw(around) {
      const first = Math.max(0, Math.min(around - MOST_EVENTS / 2, listed.length - MOST_EVENTS));
      drawn = listed.slice(first, first + MOST_EVENTS);
      const words = drawn.length === listed.length ? caption
        : `${caption}: ${first + 1} to ${first + drawn.length} of ${listed.length}`;
      place.replaceChildren(table("events", words, ["Event", "Hart", "Instruction", "Outcome"],
        drawn.map((index) => eventRow(events[index], index))));
    }

    /** Takes these events, or those of them alone that trap or clear a tag. */
    function show(shown, onlyMarked) {
      events = shown;
      listed = events.map((_, index) => index)
        .filter((index) => !onlyMarked || isMarked(events[index]));
      draw(0);
      mark(current);
    }

    /** Makes an event current. One button is in the order of the tab key: its own, or the first. */
    function mark(index) {
      const at = listed.indexOf(index);
      const isNear = drawn.includes(index) && (drawn.length === listed.length
        || (index !== drawn[0] && index !== drawn[drawn.length - 1]));
      if (at >= 0 && !isNear) draw(at);
      buttonOf(current)?.closest("tr").removeAttribute("aria-current");
      for (const button of place.querySelectorAll('button[tabindex="0"]')) button.tabIndex = -1;
      current = index;
      const chosen = at >= 0 ? buttonOf(index) : place.querySelector("tbody button");
      if (chosen) chosen.tabIndex = 0;
      if (at < 0) return;
      chosen.closest("tr").setAttribute("aria-current", "step");
      keepInSight(place, chosen.closest("tr"));
    }

    place.addEventListener("click", (click) => {
      const made = click.target.closest("tbody tr");
      if (made) pick(Number(made.dataset.index));
    });
    place.addEventListener("keydown", (key) => {
      const step = { ArrowUp: -1, ArrowDown: 1 }[key.key];
      if (step === undefined || !key.target.dataset.index) return;
      key.preventDefault();
      const next = listed[listed.indexOf(Number(key.target.dataset.index)) + step];
      if (next === undefined) return;
      pick(next);
      buttonOf(next).focus();
    });
    return { show, mark };
  }

  /** Scrolls a part, and not the page, so that a child of it is seen. */
  function keepInSight(part, child) {
    const [outer, inner] = [part.getBoundingClientRect(), child.getBoundingClientRect()];
    if (inner.top < outer.top + 32) part.scrollTop -= outer.top + 64 - inner.top;
    else if (inner.bottom > outer.bottom) part.scrollTop += inner.bottom - outer.bottom + 32;
  }

  // ------------------------------------------------------------------- reasons

  const VERBS = { reads: "reads", finds: "finds", leaves: "leaves", sets: "sets" };

  /** The facts of an event as rows: what, where, and the value. */
  function factRows(event, image) {
    const rows = [];
    const values = (kind, prefix) => {
      for (const [name, value] of Object.entries(event[kind] ?? {})) {
        rows.push(row({}, [VERBS[kind]], cell("owner", prefix + name), ...valueCells(value, image)));
      }
    };
    values("reads", "");
    values("finds", "mem ");
    values("leaves", "mem ");
    values("sets", "");
    return rows;
  }

  /** The reasons of an event in words: why it trapped, and why each tag was cleared. */
  function reasonsOf(event) {
    const reasons = [];
    if (event.why !== undefined) reasons.push(`Traps ${CAUSES[event.cause]}: ${event.why}`);
    for (const [name, why] of Object.entries(event.clears ?? {})) {
      reasons.push(`Clears ${name}: ${why}`);
    }
    return reasons;
  }

  function headOf(event) {
    if (event.outcome === "sweep") return `Event ${event.number}: ${eventWords(event)}`;
    const line = event.line === undefined ? "" : `, line ${event.line}`;
    return `Event ${event.number}: hart ${event.hart}${line}: ${eventWords(event)}`;
  }

  /** Puts an event in words into a live region, and its facts into a table below it. */
  function showEvent(words, facts, event, image, otherwise) {
    if (!event) {
      words.replaceChildren(element("p", { class: "head" }, otherwise));
      facts.replaceChildren();
      return;
    }
    const reasons = reasonsOf(event);
    words.replaceChildren(
      element("p", { class: "head" }, `${headOf(event)} \u2014 ${outcomeWords(event)}`),
      ...reasons.map((reason) => element("p", { class: "reason" }, `\u26a0 ${reason}`)));
    const rows = factRows(event, image);
    const access = event.at
      && element("p", {}, `Accesses ${plural(event.at.bytes, "byte")} at ${event.at.address}.`);
    facts.replaceChildren(...[access, rows.length > 0
      && table("values facts", `What event ${event.number} reads and writes`,
        ["Fact", "Place", ...VALUE_COLUMNS], rows)].filter(Boolean));
  }

  // ------------------------------------------------------------------- listing

  /** A line with its label, its comment and the rest told apart. */
  function lineText(text) {
    const cut = text.indexOf("#");
    const code = cut < 0 ? text : text.slice(0, cut);
    const kind = /^[ \t,]*[A-Za-z_][A-Za-z0-9_]*:[ \t,]*$/.test(code) ? "label"
      : /^[ \t,]*\./.test(code) ? "directive" : "code";
    return [element("span", { class: kind }, code),
      cut < 0 ? null : element("span", { class: "comment" }, text.slice(cut))];
  }

  /** The listing, of which one line is marked. Of a long one only a part is drawn. */
  function listing(place, text) {
    const lines = text.split("\n");
    if (lines[lines.length - 1] === "") lines.pop();
    let first = -1;

    function draw(from) {
      first = from;
      const items = lines.slice(from, from + MOST_LINES).map((line, index) =>
        element("li", { value: from + index + 1 }, element("code", {}, ...lineText(line))));
      const rest = lines.length > MOST_LINES ? element("p", {}, `Lines ${from + 1} to `
        + `${from + items.length} of ${lines.length.toLocaleString("en")}.`) : null;
      place.replaceChildren(...[rest, element("ol", { class: "lines" }, ...items)].filter(Boolean));
    }

    function mark(line, kind) {
      for (const old of place.querySelectorAll("li[aria-current]")) {
        old.removeAttribute("aria-current");
        old.className = "";
      }
      if (line === undefined) return;
      if (line <= first || line > first + MOST_LINES) {
        draw(Math.max(0, Math.min(line - MOST_LINES / 2, lines.length - MOST_LINES)));
      }
      const item = place.querySelector(`li[value="${line}"]`);
      if (!item) return;
      item.setAttribute("aria-current", "step");
      item.className = kind;
      keepInSight(place, item);
    }

    draw(0);
    return { mark };
  }

  return {
    differences, eventList, isMarked, listing, sameValue, showEvent, showHarts, showMemory,
  };
})();
