/**
 * A diagram of harts against time: time goes down, a column for each hart, a box for each step. A box is dragged to
 * another moment, or moved by Alt with Up or Down: that asks for another order.
 */
const times = (() => {
  const { element } = draw;

  /** What stands in a step's box: its line, its words, and what came of it. */
  function boxOf(event, index) {
    const came = view.isMarked(event) ? "\u26a0 " : "";
    const outcome = { trap: `trap ${registers.CAUSES[event.cause]}`, halt: "halt" }[event.outcome]
      ?? (event.clears ? "tag cleared" : null);
    const words = event.outcome === "sweep" ? `sweep ${event.lo} to ${event.hi}` : event.instruction;
    const line = event.line === undefined ? "" : `${event.line}: `;
    return element("button", { type: "button", class: view.isMarked(event) ? "box marked" : "box",
      "data-index": index, tabindex: -1, title: `${line}${words}` },
    `${came}${line}${words}${outcome ? ` \u2014 ${outcome}` : ""}`);
  }

  function rowOf(event, index, harts) {
    const name = element("th", { scope: "row" }, String(event.number));
    const box = boxOf(event, index);
    if (event.hart === undefined) {
      return element("tr", { "data-index": index }, name, element("td", { colspan: harts }, box));
    }
    const cells = Array.from({ length: harts }, (_, hart) =>
      element("td", { class: "lane" }, hart === event.hart ? box : null));
    return element("tr", { "data-index": index }, name, ...cells);
  }

  function tableOf(events, harts, caption) {
    const heads = ["Event", ...Array.from({ length: harts }, (_, hart) => `Hart ${hart}`)];
    return element("table", {}, element("caption", {}, caption),
      element("thead", {}, element("tr", {}, ...heads.map((head) => element("th", { scope: "col" }, head)))),
      element("tbody", {}, ...events.map((event, index) => rowOf(event, index, harts))));
  }

  /** `pick(index)` goes to an event; `move(from, to)` asks for the order in which a step comes at another's moment. */
  function over(place, pick, move) {
    let events = [];
    const boxAt = (index) => place.querySelector(`button[data-index="${index}"]`);
    const moveRow = (from, to) => move(events[from].number, events[to].number);
    const dragging = drag.over(place, (target) => target.closest("button.box"), moveRow);

    /** Draws these events of a run of so many harts and operations. */
    function show(shown, harts, length) {
      events = shown;
      const part = events.length < length ? `: ${events[0].number} to ${events.at(-1).number} of ${length}` : "";
      place.replaceChildren(tableOf(events, harts, `Steps of the harts in time${part}`));
    }

    /** Marks the event of the position; its box is in the order of the tab key, else the first. */
    function mark(index) {
      place.querySelector("tr[aria-current]")?.removeAttribute("aria-current");
      for (const box of place.querySelectorAll('button[tabindex="0"]')) box.tabIndex = -1;
      const box = boxAt(index) ?? boxAt(0);
      if (box) box.tabIndex = 0;
      const row = place.querySelector(`tr[data-index="${index}"]`);
      if (!row) return;
      row.setAttribute("aria-current", "step");
      keepInSight(place, row);
    }

    place.addEventListener("click", ({ target, detail }) => {
      const box = target.closest("button.box");
      // a click of the keyboard has no count; one of the mouse may end a drag
      if (box && (detail === 0 || !dragging.wasDragged())) pick(Number(box.dataset.index));
    });
    place.addEventListener("keydown", (key) => {
      const step = { ArrowUp: -1, ArrowDown: 1 }[key.key];
      const from = Number(key.target.dataset.index);
      if (step === undefined || !key.target.dataset.index) return;
      key.preventDefault();
      if (!events[from + step]) return;
      if (key.altKey) moveRow(from, from + step);
      else pick(from + step);
    });
    return { focus: (number) => boxAt(events.findIndex((event) => event.number === number))?.focus(), mark, show };
  }

  /** Scrolls a part, and not the page, so that a row of it is seen. */
  function keepInSight(place, row) {
    const [outer, inner] = [place.getBoundingClientRect(), row.getBoundingClientRect()];
    if (inner.top < outer.top + 32) place.scrollTop -= outer.top + 64 - inner.top;
    else if (inner.bottom > outer.bottom) place.scrollTop += inner.bottom - outer.bottom + 32;
  }

  return { over };
})();
