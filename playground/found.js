/** What is found of orders: tables of ends, of values and of properties, each row with a button that opens its order. */
const found = (() => {
  const { cell, element, plural, row, table } = draw;
  /** So many places are columns; of more the first. */
  const MOST_COLUMNS = 8;
  /** Of a longer order the beginning and the end are shown. */
  const MOST_STEPS = 40;
  const EMPTY = "-";

  const paragraph = (...words) => element("p", {}, ...words);

  /** A table whose cells have their columns' names too: a narrow screen shows them so. */
  function tableOf(caption, columns, rows) {
    for (const made of rows) {
      [...made.children].forEach((one, index) => { one.dataset.head = columns[index]; });
    }
    return table("found", caption, columns, rows);
  }

  // ------------------------------------------------------------------ orders

  function orderWords(order) {
    if (order === EMPTY) return "no step";
    if (order.length <= MOST_STEPS) return order;
    const half = MOST_STEPS / 2;
    return `${order.slice(0, half)}\u2026${order.slice(-half)} (${order.length.toLocaleString("en")})`;
  }

  /** A button that opens an order; `of` says which one, for those who hear it. */
  const buttonOf = (order, of, words = "Open this order") => element("button",
    { type: "button", "data-order": order === EMPTY ? "" : order, "aria-label": `${words}: ${of}` }, words);

  const orderCells = (order, of) => (order === undefined ? [cell("order"), cell("open")]
    : [cell("order", element("code", { title: order }, orderWords(order))), cell("open", buttonOf(order, of))]);

  // ------------------------------------------------------------------ how a search ended

  const states = (count) => plural(count, "state");

  /** Whether all states were searched: what is not known where they weren't. */
  function reachWords({ complete, states: count }, rest) {
    return complete ? paragraph(`All ${states(count)} are searched, so this is true of every order.`)
      : element("p", { class: "cut" }, `Unknown after ${states(count)}: the search was cut at its limit. ${rest}`);
  }

  /** Harts in words, from a word as `harts=0,2,5`. */
  const equalWords = (word) => word.slice("harts=".length).replaceAll(",", ", ").replace(/, (\d+)$/, " and $1");

  /** What states are told apart without, where it is less than all that they hold. */
  function reducedWords({ reduced = [] }) {
    const words = reduced.map((word) => (word === "registers"
      ? "States that differ only in registers which nobody reads again count as one."
      : `States in which the equal harts ${equalWords(word)} have changed places count as one.`));
    return words.length > 0 ? paragraph(words.join(" ")) : null;
  }

  const ENDLESS = {
    no: "Every run ends.",
    unfair: "A run goes on for ever only where a hart that runs is never let on.",
    yes: "A run can go on for ever, whatever the scheduler does.",
    unknown: "Whether every run ends is unknown.",
  };

  function endlessWords({ answer, order, loop }) {
    if (loop === undefined) return paragraph(ENDLESS[answer]);
    const whole = (order === EMPTY ? "" : order) + loop;
    return paragraph(`${ENDLESS[answer]} `, element("code", { title: order }, orderWords(order)), " and then for ever ",
      element("code", { title: loop }, orderWords(loop)), " ", buttonOf(whole, "and its loop once"));
  }

  // ------------------------------------------------------------------ ends

  function statusWords(harts) {
    const words = harts.map(registers.statusWords);
    const isSame = words.every((one) => one === words[0]);
    if (isSame) return harts.length === 1 ? words[0] : `all ${words[0]}`;
    return words.map((one, hart) => `hart ${hart} ${one}`).join("; ");
  }

  /** The values of an end by their places: `H.cN`, `H.pcc`, and granules as `mem ADDRESS`. */
  function valuesOf({ harts, mem }) {
    const all = new Map();
    harts.forEach(({ pcc, regs }, hart) => {
      for (const [name, value] of Object.entries({ ...regs, pcc })) all.set(`${hart}.${name}`, value);
    });
    for (const [address, value] of Object.entries(mem)) all.set(`mem ${address}`, value);
    return all;
  }

  const orderOf = (place) => {
    const [, hart, name] = /^(\d)\.c(\d+)$/.exec(place) ?? [];
    return hart === undefined ? place.replace(/^mem /, "~") : `${hart}.${name.padStart(2, "0")}`;
  };

  /** The places whose values differ among ends, in order. */
  function differing(ends) {
    const all = [...new Set(ends.flatMap((end) => [...end.keys()]))];
    const wordOf = (value = draw.NULL) => `${value.tag} ${value.word}`;
    return all.filter((place) => ends.some((end) => wordOf(end.get(place)) !== wordOf(ends[0].get(place))))
      .sort((one, other) => (orderOf(one) < orderOf(other) ? -1 : 1));
  }

  const placeWords = (place) => place.replace(/^mem ([0-9a-f]+)$/, (words, address) => `mem ${values.short(address)}`);

  const moreWords = (count, shown) => (count > shown
    ? paragraph(`The first ${shown} of ${count.toLocaleString("en")} are shown.`) : null);

  /** Ends, with the places in which they differ; `runs` says whether each has a count of runs, and `ofEnd` which it is. */
  function endsTable(caption, ends, { runs = false, ofEnd }) {
    const all = ends.map(valuesOf);
    const places = differing(all);
    const columns = places.slice(0, MOST_COLUMNS);
    const rows = ends.map((end, number) => row({}, [String(number)],
      ...(runs ? [cell("runs", end.runs.toLocaleString("en"))] : []), cell("status", statusWords(end.harts)),
      ...columns.map((place) => cell("value", element("code", {}, values.words(all[number].get(place) ?? draw.NULL)))),
      ...orderCells(end.order, ofEnd(end, number))));
    const left = places.length - columns.length;
    return [
      rows.length > 0 && tableOf(caption,
        ["End", ...(runs ? ["Runs"] : []), "Harts", ...columns.map(placeWords), "Order", "Open"], rows),
      left > 0 && paragraph(`The ends differ in ${plural(left, "more place")}. Name items to see others.`),
    ];
  }

  /** Every end, with the places in which they differ. */
  function outcomes({ outcomes: ends, count, endless, ...search }) {
    return [
      reachWords(search, "There may be more ends than these."), endlessWords(endless),
      ...endsTable(`${plural(count, "end")}, each with its shortest order`, ends, { ofEnd: (end, number) => `end ${number}` }),
      moreWords(count, ends.length),
    ];
  }

  /** The rows of values that the items have at the ends; these are counted where each is told apart from the others. */
  function rowsOf({ shown, count, endless, ...search }, items) {
    const isCounted = !search.reduced;
    const rows = shown.map(({ states: ends, values: told, order }, number) => row({}, [String(number)],
      ...(isCounted ? [cell("ends", plural(ends, "end"))] : []),
      ...items.map((item) => cell("value", element("code", {}, told[item]))), ...orderCells(order, `row ${number}`)));
    return [
      reachWords(search, "There may be more rows than these."), reducedWords(search), endlessWords(endless),
      rows.length > 0 && tableOf(`${plural(count, "row")} of values at the ends, each with the first end's order`,
        ["Row", ...(isCounted ? ["Ends"] : []), ...items, "Order", "Open"], rows),
      moreWords(count, rows.length),
    ];
  }

  // ------------------------------------------------------------------ states and properties

  /** A state in which a condition holds, or that there is none. */
  function state({ answer, order, states: count, ...search }) {
    if (answer === "found") {
      return [paragraph("Found: it holds after ", element("code", { title: order }, orderWords(order)), " ",
        buttonOf(order, "it leads to a state in which the condition holds"))];
    }
    return [answer === "none" ? paragraph(`None in ${states(count)}: it holds in no state that any order leads to.`)
      : element("p", { class: "cut" }, `Unknown after ${states(count)}: it holds in none of these, and there are more. `
        + "Take a higher limit."), reducedWords(search)];
  }

  const MARKS = { holds: "\u2713", violated: "\u2717", unknown: "?" };

  /** What is known of each property of the listing. */
  function verdicts({ properties, ...search }) {
    const rows = properties.map(({ line, answer, property, order, loop }) => {
      const whole = loop === undefined ? order : `${order === EMPTY ? "" : order}${loop}`;
      const go = element("button", { type: "button", "data-line": line, "aria-label": `Go to line ${line}` }, String(line));
      return row({}, [go], cell(`verdict ${answer}`, `${MARKS[answer]} ${answer}`),
        cell("property", element("code", {}, property)), ...orderCells(whole, `line ${line}, ${answer}`));
    });
    return [
      reachWords(search, "What is not decided by then stays unknown."), reducedWords(search),
      tableOf("The properties of the listing, each with the order that decides it",
        ["Line", "Answer", "Property", "Order", "Open"], rows),
    ];
  }

  // ------------------------------------------------------------------ orders drawn by chance

  const runsWords = (count) => plural(count, "run");

  /** What is said of runs that did not end, with the first of them; nothing where there are none. */
  const unendedWords = ({ runs, first, order }, words) => (runs === 0 ? null
    : paragraph(`${runsWords(runs)} ${words} The first is number ${first}: `,
      element("code", { title: order }, orderWords(order)), " ", buttonOf(order, `run ${first}`)));

  function trapsTable(traps) {
    const rows = traps.map(({ hart, cause, runs, first, order }) => row({}, [`hart ${hart}`],
      cell("status", `${registers.CAUSES[cause]} (cause ${cause})`), cell("runs", runs.toLocaleString("en")),
      ...orderCells(order, `hart ${hart}, run ${first}`)));
    return tableOf("The traps of runs, each with the order of the first run that has it",
      ["Hart", "Trap", "Runs", "Order", "Open"], rows);
  }

  /** What came of runs in orders that were drawn by chance. */
  function sampled({ runs, longest, cut, hung, traps, outcomes: ends, count, drawn }) {
    return [
      paragraph(`${runsWords(runs)} in orders drawn by chance; the longest took ${plural(longest, "operation")}. `
        + "What is not here may happen in another order."),
      unendedWords(hung, "hung: no order of steps leads from there to an end."),
      unendedWords(cut, `had not ended after ${plural(drawn.length, "operation")}.`),
      ...endsTable(`${plural(count, "end")}, each with the order of the first run that came to it`, ends,
        { runs: true, ofEnd: ({ first }, number) => `end ${number}, run ${first}` }),
      moreWords(count, ends.length),
      traps.length > 0 && trapsTable(traps),
    ];
  }

  return { outcomes, rows: rowsOf, sampled, state, verdicts };
})();
