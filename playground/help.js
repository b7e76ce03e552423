/** Help on an instruction: what it computes, when the tag stays, which traps; of the table of `instructions.txt`. */
const help = (() => {
  const { element } = draw;
  const CAUSES = () => registers.CAUSES;
  let table = new Map();

  /** Takes the table: an object for each instruction. */
  function begin(rows) {
    table = new Map(rows.map((row) => [row.name, row]));
  }

  /** The kinds of operands by the names of instructions. */
  const forms = () => new Map([...table.values()].map(({ name, operands }) => [name, operands]));

  const trapWords = (traps) => (traps.length === 0 ? "none but those of its fetch"
    : traps.map((cause) => `${cause} ${CAUSES()[cause]}`).join(", "));

  const wordsOf = (row) => [
    element("p", {}, element("code", {}, `${row.name} ${row.written}`), ` ${row.computes}`),
    element("p", {}, element("b", {}, "Tag: "), `${row.tag}. `, element("b", {}, "Traps: "),
      `${trapWords(row.traps)}. `, element("a", { href: `instructions.html#${row.name}` }, "All instructions")),
  ];

  /** Draws the help of a line: of its instructions, each name once, or that it has none. */
  function show(place, texts, number) {
    const names = new Set(texts.map((text) => source.tokensOf(text ?? "")[0]?.text));
    const rows = [...names].map((name) => table.get(name)).filter(Boolean);
    place.replaceChildren(...(rows.length > 0 ? rows.flatMap(wordsOf) : [element("p", {},
      `Line ${number}: no instruction. Point at one, or go to its line, for help.`)]));
  }

  return { begin, forms, show };
})();
