/**
 * An editor of a listing: a text area whose lines have numbers and marks beside them, and bars behind those that are
 * faulty or next. Of a long listing only the numbers in sight are drawn.
 */
const editor = (() => {
  const { element } = draw;
  /** So many harts are named beside a line; of more there is the count. */
  const MOST_NAMED = 3;

  /** How high a line of a text area is, and what is above the first. */
  function sizesOf(area) {
    const style = getComputedStyle(area);
    return [style.lineHeight, style.paddingTop].map(parseFloat);
  }

  /** The lines of a text area: which one the cursor is in, which lies at a height, and what brings one into sight. */
  function linesOf(area) {
    const caretLine = () => area.value.slice(0, area.selectionStart).split("\n").length;

    /** The line at a height of the window, or nothing below the last. */
    function lineAt(y) {
      const [height, padding] = sizesOf(area);
      const line = Math.floor((y - area.getBoundingClientRect().top + area.scrollTop - padding) / height) + 1;
      return line >= 1 && line <= area.value.split("\n").length ? line : null;
    }

    /** Scrolls a line into sight, where it isn't. */
    function follow(line) {
      const [height, padding] = sizesOf(area);
      const top = padding + (line - 1) * height;
      if (top >= area.scrollTop + height && top + 2 * height <= area.scrollTop + area.clientHeight) return;
      area.scrollTop = Math.max(0, top - area.clientHeight / 2);
    }

    /** Puts the cursor over a line, or over a part of it, and scrolls that into sight. */
    function goTo(line, { at: first = 0, length } = {}) {
      const lines = area.value.split("\n");
      const begin = first + lines.slice(0, line - 1).reduce((sum, text) => sum + text.length + 1, 0);
      area.focus();
      area.setSelectionRange(begin, begin + (length ?? lines[line - 1]?.length ?? 0));
      area.scrollTop = Math.max(0, (line - 4) * sizesOf(area)[0]);
    }

    return { caretLine, follow, goTo, lineAt };
  }

  /** A row beside a line: its breakpoint, its fault or trap, the harts whose next instruction it has, its number. */
  function rowOf(line, { marks, points, faults, trapped }) {
    const harts = marks.get(line) ?? "";
    const next = harts && `\u25B6${harts.length <= MOST_NAMED ? harts : `\u00D7${harts.length}`}`;
    const mark = faults.has(line) ? "\u2717" : (line === trapped ? "\u26a0" : "") + next;
    const kind = faults.has(line) ? "faulty" : mark ? "next" : null;
    return element("div", { class: kind, "data-line": line },
      element("span", { class: "mark-of-line" }, points.has(line) ? "\u25CF" : "", mark), String(line));
  }

  /** The lines that have a bar behind them, each with its kind. */
  function barsOf({ marks, faults, trapped }) {
    const kinds = new Map([...marks.keys()].map((line) => [line, "next"]));
    for (const line of [trapped, ...faults.keys()]) if (line !== null) kinds.set(line, "faulty");
    return kinds;
  }

  const TAB = 8;

  /** How many columns wide a text is at the beginning of a line. */
  const widthOf = (text) => [...text].reduce((width, char) => width + (char === "\t" ? TAB - width % TAB : 1), 0);

  /** What underlines the marked part of a faulty line. */
  function underline(line, { at, length }, scrolled) {
    const [from, to] = [at, at + length].map((end) => widthOf(line.slice(0, end)));
    return element("span", { class: "at-column",
      style: `left: calc(0.4rem + ${from}ch - ${scrolled}px); width: ${Math.max(to - from, 1)}ch` });
  }

  /** A part of the editor at a height, which follows the scrolling of the text. */
  function putAt(part, top, height = null) {
    if (height !== null) part.style.height = `${height}px`;
    part.style.transform = `translateY(${top}px)`;
    return part;
  }

  /**
   * `area` is the text area, `gutter` the place beside it, `bars` what lies behind it; `toggle(line)` is called where
   * a line's number is clicked.
   */
  function over(area, gutter, bars, toggle) {
    const shown = { marks: new Map(), points: new Set(), faults: new Map(), trapped: null };

    /** The rows of numbers and marks that are in sight, and the bars. */
    function show() {
      const [height, padding] = sizesOf(area);
      const count = area.value.split("\n").length;
      const first = Math.max(0, Math.floor((area.scrollTop - padding) / height));
      const last = Math.min(count, first + Math.ceil(area.clientHeight / height) + 2);
      const topOf = (line) => padding + (line - 1) * height - area.scrollTop;
      const rows = Array.from({ length: last - first }, (_, index) => rowOf(first + index + 1, shown));
      gutter.replaceChildren(putAt(element("div", {}, ...rows), topOf(first + 1)));
      bars.replaceChildren(...[...barsOf(shown)].map(([line, kind]) =>
        putAt(element("div", { class: `bar-of-line ${kind}` }, ...marksIn(line)), topOf(line), height)));
    }

    /** What is marked within a line. */
    function marksIn(line) {
      const part = shown.faults.get(line);
      return part ? [underline(area.value.split("\n")[line - 1] ?? "", part, area.scrollLeft)] : [];
    }

    /** Shows other marks than before. */
    function mark(changed) {
      Object.assign(shown, changed);
      show();
    }

    /** Marks the lines of the next instructions, of each hart its line or null; and the one that trapped just now. */
    function next(lines, trapped) {
      const marks = new Map();
      lines.forEach((line, hart) => {
        if (line !== null) marks.set(line, (marks.get(line) ?? "") + hart);
      });
      mark({ marks, trapped });
    }

    area.addEventListener("scroll", show);
    area.addEventListener("input", show);
    new ResizeObserver(show).observe(area);
    gutter.addEventListener("click", ({ target }) => {
      const line = Number(target.closest("[data-line]")?.dataset.line);
      if (line) toggle(line);
    });
    return {
      ...linesOf(area), next, show,
      breakpoints: (lines) => mark({ points: new Set(lines) }),
      /** Marks the faulty lines: each line's number to the part of it that is meant, or null. */
      faults: (lines) => mark({ faults: lines }),
    };
  }

  return { over };
})();
