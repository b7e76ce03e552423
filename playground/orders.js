/** Texts of orders: where each operation ends, and what is appended to one. */
const orders = (() => {
  const HEADER = "order 2\n";

  const hasHeader = (text) => text.startsWith(HEADER);

  /** Where in the text each operation begins and ends, as far as there are operations. */
  function operationsOf(text) {
    const found = [];
    const pattern = hasHeader(text) ? /[0-7]|\[[^\]\[]*\]/y : /[0-7]/y;
    let at = hasHeader(text) ? HEADER.length : 0;
    while (at < text.length) {
      pattern.lastIndex = at;
      const token = pattern.exec(text);
      if (token) {
        found.push([at, at + token[0].length]);
        at += token[0].length;
      } else if (text[at] === " " || text[at] === "\n") at += 1;
      else break;
    }
    return found;
  }

  /** The text up to the end of so many operations. */
  function firstOf(text, count) {
    if (count === 0) return hasHeader(text) ? HEADER : "";
    const operations = operationsOf(text);
    return text.slice(0, operations[Math.min(count, operations.length) - 1]?.[1] ?? 0);
  }

  /** The text after so many operations, and then one step of this hart. */
  const withStep = (text, count, hart) => `${firstOf(text, count)}${hart}`;

  /** The text after so many operations, and then a sweep, with the header that it needs. */
  function withSweep(text, count, low, high) {
    const kept = firstOf(text, count);
    return `${hasHeader(kept) ? "" : HEADER}${kept}[${low},${high}]`;
  }

  /** The text of an order as answers about all orders write it: with the header that its sweeps need. */
  const ofAnswer = (written) => (written.includes("[") ? `${HEADER}${written}` : written);

  /** The text in which one operation comes where another is now. */
  function withMoved(text, from, to) {
    const operations = operationsOf(text);
    const [begin, end] = operations[from];
    const moved = text.slice(begin, end);
    if (to > from) {
      const after = operations[to][1];
      return text.slice(0, begin) + text.slice(end, after) + moved + text.slice(after);
    }
    const before = operations[to][0];
    return text.slice(0, before) + moved + text.slice(before, begin) + text.slice(end);
  }

  /** Whether a file's text is that of an order: a header, or digits of harts alone. */
  const isOrder = (text) => hasHeader(text) || /^[0-7 \n]*[0-7][0-7 \n]*$/.test(text);

  return { firstOf, isOrder, ofAnswer, operationsOf, withMoved, withStep, withSweep };
})();
