/** What a good listing's lines are, by their text alone: instructions, labels, the registers that they name. */
const source = (() => {
  const CODE_BASE = 0x1000_0000;
  const NO_INSTRUCTION = /^[ \t,]*(#|$|\.|[^ \t,#]*:)/;
  const LABEL = /^[ \t,]*([A-Za-z_][A-Za-z0-9_]*:)/;

  const codeOf = (line) => line.split("#")[0];

  /** The tokens of a line: where each begins, and its text. */
  function tokensOf(line) {
    return [...codeOf(line).matchAll(/[^ \t,]+/g)].map((found) => ({ at: found.index, text: found[0] }));
  }

  /** The addresses of the instruction lines: a line's number to its address as a number. */
  function addressesOf(text) {
    const addresses = new Map();
    text.split("\n").forEach((line, index) => {
      if (!NO_INSTRUCTION.test(line)) addresses.set(index + 1, CODE_BASE + 4 * addresses.size);
    });
    return addresses;
  }

  /** The address of the instruction at a line, or else of the next one below it; nothing below the last. */
  function addressAt(addresses, line) {
    for (const [number, address] of addresses) if (number >= line) return address;
    return null;
  }

  /** The numbers of the registers that a run of the listing can change, in order. */
  function registersOf(text) {
    const code = text.split("\n").map(codeOf).join("\n");
    const named = [...code.matchAll(/(?<![\w.])c(\d{1,2})(?![\w.])/g)].map((found) => Number(found[1]));
    if (/(?<![\w.+])cinvoke(?![\w.+])/.test(code)) named.push(31);
    return [...new Set(named)].filter((number) => number >= 1 && number <= 31).sort((a, b) => a - b);
  }

  /** For each line its words in events: the labels just above it, its own words, and its comment. */
  function wordsOf(text) {
    let labels = [];
    return text.split("\n").map((line) => {
      const label = LABEL.exec(line);
      if (label) labels.push(label[1]);
      if (NO_INSTRUCTION.test(line)) return "";
      const words = [...labels, line.trim().replace(/[ \t]+/g, " ")].join(" ");
      labels = [];
      return words;
    });
  }

  /** The names of the labels, in order. */
  const labelsOf = (text) => text.split("\n").map((line) => LABEL.exec(line)?.[1].slice(0, -1)).filter(Boolean);

  /** The index in a text of a byte of its UTF-8. */
  const indexOfByte = (text, byte) => new TextDecoder().decode(new TextEncoder().encode(text).subarray(0, byte)).length;

  return { addressAt, addressesOf, indexOfByte, labelsOf, registersOf, tokensOf, wordsOf };
})();
