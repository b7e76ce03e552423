/** Where a listing or an order is faulty: the lines or the byte marked, with the faults in words. */
const faulty = (() => {
  const part = (id) => document.getElementById(id);
  const { element } = draw;
  const { STATUS } = machine;
  const KINDS = {
    [STATUS.LISTING]: "listing", [STATUS.ORDER]: "order", [STATUS.STEP]: "step", [STATUS.ASSEMBLY]: "assembly",
  };
  const AROUND = 16;
  /** So many faults after the first are told in words. */
  const MOST_OTHERS = 8;
  let meanings = new Map();

  /** Takes the table of what kinds of faults mean. */
  function begin(table) {
    meanings = new Map(table.map(({ of, kind, name, means }) => [`${of} ${kind}`, `${name}: ${means}.`]));
  }

  function meaningOf({ status, kind }) {
    const means = meanings.get(`${KINDS[status]} ${kind}`);
    return means ? element("p", { class: "meaning" }, means) : null;
  }

  /** What of a faulty line is meant, and of a listing what was found and expected; nothing where none is told. */
  function markOf(line, { status, place, kind, column }) {
    if (place === 0) return null;
    if (status === STATUS.ASSEMBLY) return assembly.markedAt(line, column);
    return status === STATUS.LISTING ? faults.explain(line, kind, help.forms()) : null;
  }

  /** Answers that are faults, each with the line of the text that it is about, and its mark. */
  function marked(list, text) {
    const lines = text.split("\n");
    return list.map((answer) => {
      const line = lines[answer.place - 1] ?? "";
      return { ...answer, words: line, mark: markOf(line, answer) };
    });
  }

  /** Of each of these faults the line, and the part of it that is meant. */
  const partsOf = (list) => new Map(list.filter(({ place }) => place > 0).map(({ place, mark }) => [place, mark]));

  /** The button that goes to a fault. */
  function buttonTo({ status, place, column, mark }, goTo) {
    const isAssembly = status === STATUS.ASSEMBLY;
    const go = element("button", { type: "button" }, `Go to line ${place}${isAssembly ? `, column ${column}` : ""}`);
    go.addEventListener("click", () => goTo(place, isAssembly ? mark : undefined));
    return go;
  }

  /** The faults after the first, a line for each. */
  function others(list, goTo) {
    const rows = list.slice(0, MOST_OTHERS).map((fault) => element("li", {}, fault.line, " ", buttonTo(fault, goTo), " ",
      faults.wordsOf(fault.mark)));
    const left = list.length - rows.length;
    return [element("p", {}, list.length === 1 ? "One more faulty line:" : `${list.length} more faulty lines:`),
      element("ul", {}, ...rows), left > 0 ? element("p", {}, `and ${left} more, marked in the listing.`) : null];
  }

  /** Shows the marked faults of a listing or of assembly, the first in full; `goTo` goes to the line and part of one. */
  function showListing(list, goTo) {
    const [first, ...more] = list;
    const parts = [];
    if (first) {
      parts.push(first.line);
      if (first.place > 0) parts.push(" ", buttonTo(first, goTo));
      parts.push(first.mark && faults.drawn(first.words, first.mark), meaningOf(first));
      if (more.length > 0) parts.push(...others(more, goTo));
    }
    part("listing-fault").replaceChildren(...parts.filter(Boolean));
  }

  /** Some of the order around a byte, which is marked. */
  function markIn(text, from, to) {
    const visible = (words) => words.replaceAll("\n", "\u23CE");
    return element("code", {}, " ", from > AROUND ? "\u2026" : "",
      visible(text.slice(Math.max(0, from - AROUND), from)),
      element("mark", {}, visible(text.slice(from, to)) || "end"), visible(text.slice(to, to + AROUND)),
      text.length > to + AROUND ? "\u2026" : "");
  }

  /** Shows an order's fault with the byte or the operation marked, or none. */
  function showOrder(answer, text) {
    const { status, kind, place, line } = answer;
    const isStep = status === STATUS.STEP;
    const parts = [];
    if (status !== STATUS.DONE) parts.push(line);
    if (isStep || (status === STATUS.ORDER && kind !== 2)) {
      const [from, to] = isStep ? orders.operationsOf(text)[place] ?? [0, 0] : [place, place + 1];
      parts.push(markIn(text, from, to));
    }
    if (isStep || status === STATUS.ORDER) parts.push(meaningOf(answer));
    part("order-fault").replaceChildren(...parts.filter(Boolean));
  }

  return { begin, markIn, marked, partsOf, showListing, showOrder };
})();
