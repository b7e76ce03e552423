/**
 * What the text of the editor means. A listing means itself. Assembly means a listing, and the map of that says which
 * line and label each instruction comes from. So a program has `listing`, and of the listing's lines: `lineOf`, the line
 * of the text; `nameOf`, that in words; `words`, what events say of it. And of the text's lines: `addresses`, and
 * `textsAt`, the instructions of one. And `targets`, what conditions say of places in the code: each name, and the target.
 */
const assembly = (() => {
  const part = (id) => document.getElementById(id);
  const CODE = /^code \d+ (?:1:(\d+)|-) (.*)$/gm;

  /** The name of a file of assembly, for a piece of work. */
  function fileOf(work) {
    const name = work.replace(/[\u0000-\u001f]/g, " ").trim() || "prog";
    return /\.s$/i.test(name) ? name : `${name}.s`;
  }

  /** Of each instruction of a map, in order, its line, or null for the guard and the exit, and its label. */
  const sourcesOf = (map) => [...map.matchAll(CODE)]
    .map(([, line, label]) => ({ line: line === undefined ? null : Number(line), label }));

  /** A listing as a program. */
  function ofListing(listing) {
    return {
      listing, addresses: source.addressesOf(listing), words: source.wordsOf(listing),
      lineOf: (line) => line, nameOf: (line) => `line ${line}`,
      textsAt: (line) => [listing.split("\n")[line - 1]],
      targets: source.labelsOf(listing).map((name) => ({ name, target: name })),
    };
  }

  /** The instructions of a listing that assembly means, by the listing's lines. */
  function instructionsOf(listing, map) {
    const [lines, sources] = [listing.split("\n"), sourcesOf(map)];
    return new Map([...source.addressesOf(listing)].map(([line, address], number) =>
      [line, { ...sources[number], address, text: lines[line - 1] }]));
  }

  /** What events say of an instruction: its label, and its statement; and itself, where a line has many. */
  function wordsOf({ line, label, text }, written, many) {
    if (line === null) return `${label}: ${text}`;
    const statement = written[line - 1].trim().replace(/[ \t]+/g, " ");
    return `${label === "-" ? "" : `${label}: `}${statement}${many ? ` (${text})` : ""}`;
  }

  /** Assembly as a program, by the listing and the map that the module made of it. */
  function ofAssembly(text, listing, map) {
    const [written, instructions] = [text.split("\n"), instructionsOf(listing, map)];
    const all = [...instructions.values()].filter(({ line }) => line !== null);
    const at = (line) => all.filter((one) => one.line === line);
    const counts = new Map();
    for (const { line } of all) counts.set(line, (counts.get(line) ?? 0) + 1);
    const words = [];
    for (const [line, one] of instructions) words[line - 1] = wordsOf(one, written, counts.get(one.line) > 1);
    return {
      listing, words,
      // of a line the first instruction
      addresses: new Map(all.map(({ line, address }) => [line, address]).reverse().sort(([one], [other]) => one - other)),
      lineOf: (line) => instructions.get(line)?.line ?? null,
      nameOf: (line) => {
        const { line: own, label } = instructions.get(line);
        return own === null ? `the ${label}` : `line ${own}`;
      },
      textsAt: (line) => at(line).map((one) => one.text),
      targets: [...instructions.values()].flatMap(({ label }, number) => {
        const name = /^(.*)\+0$/.exec(label)?.[1];
        return name ? [{ name, target: `@${number}` }] : [];
      }),
    };
  }

  /** The part of a line that a fault at a column is about: where it begins, and its length. Columns count from 1 on. */
  function markedAt(line, column) {
    const at = source.indexOfByte(line, column - 1);
    return { at, length: /^(?:[\w.$%]+|[^]?)/u.exec(line.slice(at))[0].length || 1 };
  }

  // ----------------------------------------------------------------- the switch

  /** The listing of the last good assembly. */
  let meant = "";

  const isOn = () => part("assembly").checked;

  /** Says how the text is read from now on. */
  function turn(isAssembly) {
    part("assembly").checked = isAssembly;
    document.querySelector('label[for="listing"]').textContent = isAssembly ? "Assembly" : "Listing";
    part("meant").hidden = !isAssembly;
    for (const button of document.querySelectorAll(".of-assembly")) button.hidden = !isAssembly;
  }

  /** Shows the listing that assembly means; where that is faulty, the last good one stays. */
  function showMeant(listing) {
    if (!isOn()) return;
    meant = listing ?? meant;
    part("meant-words").textContent = listing === null ? "The listing of the last good assembly"
      : "The listing that it means";
    if (part("meant").open && part("meant-listing").textContent !== meant) part("meant-listing").textContent = meant;
  }

  return { fileOf, isOn, markedAt, ofAssembly, ofListing, showMeant, turn };
})();
