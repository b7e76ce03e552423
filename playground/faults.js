/**
 * A listing's fault in words. The module says its line and kind; which token of the line is meant is told by the forms
 * of operands, as far as one line says it.
 */
const faults = (() => {
  const { element } = draw;
  const REGISTER = /^c([0-9]|[12][0-9]|3[01])$/;
  const NUMBER = /^(0x[0-9a-fA-F]+|[0-9]+)$/;
  const IMMEDIATE = /^-?(0x[0-9a-fA-F]+|[0-9]+)$/;
  const ONE_OF = "(?:global|execute|load|store|load_cap|store_cap|store_local|seal|cinvoke|unseal|sysregs|set_cid|sw[0-3])";
  const PERMISSIONS = new RegExp(`^(?:all|none|${ONE_OF}(?:\\+${ONE_OF})*)$`);

  /** What an operand of a form has to look like, and its range. */
  const OPERANDS = {
    cd: { shape: REGISTER, is: "a register c0 to c31, the destination" },
    c1: { shape: REGISTER, is: "a register c0 to c31" },
    c2: { shape: REGISTER, is: "a register c0 to c31" },
    i: { shape: IMMEDIATE, is: "a number from -2048 to 2047", least: -2048n, most: 2047n },
    length: { shape: NUMBER, is: "a number from 0 to 4095", least: 0n, most: 4095n },
    upper: { shape: NUMBER, is: "a number from 0 to 1048575", least: 0n, most: 1048575n },
    n: { shape: NUMBER, is: "a shift from 0 to 63", least: 0n, most: 63n },
    w: { shape: NUMBER, is: "a shift from 0 to 31", least: 0n, most: 31n },
    "i(c1)": { shape: /^-?(0x[0-9a-fA-F]+|[0-9]+)\(c([0-9]|[12][0-9]|3[01])\)$/,
      is: "an offset from -2048 to 2047 and a register, as 8(c5)", least: -2048n, most: 2047n },
    target: { shape: /^([A-Za-z_][A-Za-z0-9_]{0,31}|@[0-9]+)$/, is: "a label's name" },
    N: { shape: NUMBER, is: "a number", least: 0n, most: (1n << 64n) - 1n },
    word: { shape: NUMBER, is: "a number below 2^128", least: 0n, most: (1n << 128n) - 1n },
    LEN: { shape: NUMBER, is: "a length of at most 2^64", least: 0n, most: 1n << 64n },
    set: { shape: /^c([1-9]|[12][0-9]|3[01])$/, is: "a register c1 to c31" },
    kind: { shape: /^(int|word|cap)$/, is: "int, word or cap" },
    PERMS: { shape: PERMISSIONS, is: "permissions: all, none, or names with + between" },
    TYPE: { shape: /^(sentry|0x[0-9a-fA-F]+|[0-9]+)$/, is: "sentry or a number up to 262139", least: 0n,
      most: 262139n },
    HEX: { shape: /^([0-9a-fA-F]{2})+$/, is: "pairs of hexadecimal digits" },
  };
  const CAPABILITY = ["N", "LEN", "N", "PERMS"];
  const DIRECTIVES = {
    ".ram": ["N"], ".hart": CAPABILITY, ".bytes": ["N", "HEX"], ".cap": ["N", ...CAPABILITY],
    int: ["set", "kind", "N"], word: ["set", "kind", "word"], cap: ["set", "kind", ...CAPABILITY],
  };

  /** The operands that a line has to have by its first tokens; nothing where its first word is none. */
  function formOf(tokens, instructions) {
    const first = tokens[0]?.text;
    if (first === ".set") return DIRECTIVES[tokens[2]?.text] ?? ["set", "kind", "N"];
    return DIRECTIVES[first?.startsWith(".") ? first : ""] ?? instructions.get(first);
  }

  const optional = (form, count) => (form.at(-1) === "PERMS" && count > form.length ? [...form, "TYPE"] : form);

  function numberOf(text) {
    const [, sign, digits] = /^(-?)(0x[0-9a-fA-F]+|[0-9]+)/.exec(text) ?? [];
    return digits === undefined ? null : BigInt(digits) * (sign ? -1n : 1n);
  }

  /** The first operand that hasn't its shape, or else is missing or one too many; or nothing. */
  function wrongOperand(tokens, form) {
    const wanted = optional(form, tokens.length - 1);
    const wrong = wanted.findIndex((kind, index) =>
      !tokens[index + 1] || !OPERANDS[kind].shape.test(tokens[index + 1].text));
    if (wrong >= 0) return { token: tokens[wrong + 1] ?? null, expected: OPERANDS[wanted[wrong]].is };
    const more = tokens[wanted.length + 1];
    return more && { token: more, expected: "nothing more on this line" };
  }

  function outOfRange(tokens, form) {
    const wanted = optional(form, tokens.length - 1);
    const wrong = wanted.findIndex((kind, index) => {
      const { least, most } = OPERANDS[kind];
      const number = numberOf(tokens[index + 1]?.text ?? "");
      return least !== undefined && number !== null && (number < least || number > most);
    });
    return wrong < 0 ? null : { token: tokens[wrong + 1], expected: OPERANDS[wanted[wrong]].is };
  }

  /** A target by number, which may be at most the count of instructions. */
  function farTarget(tokens) {
    const token = tokens.find(({ text }) => /^@[0-9]+$/.test(text));
    return token && { token, expected: "at most the count of instructions" };
  }

  /** The token that a fault is about and what was expected there, by the fault's kind. */
  const FINDERS = {
    1: (line) => {
      const at = [...line].findIndex((char) => char !== "\t" && (char < " " || char > "~"));
      return { token: { at, text: [...line][at] ?? "" }, expected: "a character of ASCII" };
    },
    2: (line, tokens) => ({ token: tokens[0], expected: "an instruction, a directive, or a label and its colon" }),
    3: (line, tokens, form) => (form ? wrongOperand(tokens, form)
      : { token: tokens[1] ?? tokens[0], expected: "a label alone on its line" }),
    4: (line, tokens, form) => (form && outOfRange(tokens, form)) ?? farTarget(tokens)
      ?? { token: tokens[1], expected: tokens[0].text === ".cap" ? "a granule in RAM, at a multiple of 16"
        : "at most 4,096 bytes, all of them in RAM" },
    5: (line, tokens, form) => (form ? { token: tokens.at(-1), expected: "the name of a label of this listing" }
      : { token: tokens[0], expected: "a label's name: letters, digits and _, and one colon" }),
    6: (line, tokens) => ({ token: tokens[0].text === ".set" ? tokens[1] : tokens[0],
      expected: tokens[0].text === ".ram" ? "one .ram, before .bytes and .cap"
        : tokens[0].text === ".set" ? "a register that is not set yet" : "a name that no line above has" }),
    7: (line, tokens) => ({ token: { ...tokens.at(-1), at: tokens[0].at }, isWhole: true,
      expected: "a capability that there is: bounds not rounded, the address in its window" }),
    8: (line, tokens) => ({ token: tokens[0], expected: "a line .hart above it" }),
    9: (line, tokens) => ({ token: tokens[1] ?? tokens[0], expected: tokens[0].text === ".ram"
      ? "16 to 1,048,576 bytes, a multiple of 16" : "at most 8 harts and 16,384 instructions" }),
  };

  /** What a fault of this kind finds on a line: `at` and `end` of the marked part, `found` and `expected` in words. */
  function explain(line, kind, instructions) {
    const tokens = source.tokensOf(line);
    const finder = FINDERS[kind];
    if (!finder || (tokens.length === 0 && kind !== 1)) return null;
    const wrong = finder(line, tokens, formOf(tokens, instructions));
    if (!wrong) return null;
    const { token, expected, isWhole } = wrong;
    if (!token) return { at: line.split("#")[0].trimEnd().length, length: 1, found: "the end of the line", expected };
    const length = isWhole ? line.split("#")[0].trimEnd().length - token.at : Math.max(token.text.length, 1);
    return { at: token.at, length, found: isWhole ? line.slice(token.at, token.at + length) : token.text, expected };
  }

  /** What was found and expected, in words; nothing where that isn't told. */
  function wordsOf(marked) {
    if (!marked?.expected) return "";
    return element("span", {}, "Found ", element("code", {}, marked.found), `; expected ${marked.expected}.`);
  }

  /** The line with carets below the marked part, and what was found and expected below it. */
  function drawn(line, marked) {
    const { at, length } = marked;
    const [from, to] = [Math.max(0, at - 40), Math.max(at + length, at + 40)];
    const blank = line.slice(from, at).replace(/[^\t]/g, " ");
    const words = wordsOf(marked);
    return element("div", { class: "marked-line" },
      element("pre", {}, `${line.slice(from, to)}\n${blank}${"^".repeat(length)}`), words && element("p", {}, words));
  }

  return { drawn, explain, wordsOf };
})();
