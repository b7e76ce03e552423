/** A value as cells of one line each: short hexadecimal with the length; the full form is a line of its own. */
const values = (() => {
  const { cell, element, valueCells } = draw;
  const COLUMNS = ["Tag", "Value", "Bounds", "Allows", "From"];
  const MOST_DECIMAL = 10_000_000n;
  const MEBIBYTE = 1n << 20n;
  const MOST_MEBIBYTES = 10_000n;

  const short = (hex) => `0x${hex.replace(/^0+(?=.)/, "")}`;
  const shorter = (words) => words.replace(/\b[0-9a-f]{16,17}\b/g, short);
  const number = (hex) => BigInt(`0x${hex}`);

  /** A length in words: decimal, a power of two, mebibytes, or hexadecimal. */
  function lengthWords(length) {
    const power = length.toString(2).length - 1;
    if (length < MOST_DECIMAL) return `${length.toLocaleString("en")} byte${length === 1n ? "" : "s"}`;
    if (length === 1n << BigInt(power)) return `2^${power} bytes`;
    const isWhole = length % MEBIBYTE === 0n && length < MOST_MEBIBYTES * MEBIBYTE;
    return isWhole ? `${(length / MEBIBYTE).toLocaleString("en")} MiB` : `0x${length.toString(16)} bytes`;
  }

  const boundsWords = ({ base, top }) =>
    (number(top) >= number(base) ? `${lengthWords(number(top) - number(base))} from ${short(base)}`
      : `none: ${short(base)} to ${short(top)}`);

  /** What an untagged word is: a number, or the bits of what was a capability. */
  function untaggedWords(word) {
    const [upper, lower] = word.split("_");
    if (!/^0+$/.test(upper)) return word;
    const value = number(lower);
    return value < 10n ? String(value) : `${value} = ${short(lower)}`;
  }

  /** A value in a few words: a number, or a capability's address and bounds. */
  const words = (value) => (value.tag ? `${short(value.word.split("_")[1])}: ${boundsWords(value)}`
    : untaggedWords(value.word));

  /** The full form of a tagged value: word, base, top, permissions, type, origin. */
  function fullWords(value, cells) {
    const from = value.from ? `; from ${value.from}` : "";
    return `${value.word}; ${value.base} to ${value.top}; ${cells[3].textContent}${from}`;
  }

  /** The cells of a value. What the last ones say is cut where it is too long, and whole in the title. */
  function cells(value, image) {
    const drawn = valueCells(value, image);
    if (!value.tag) {
      const whole = cell("word", element("code", {}, untaggedWords(value.word)));
      whole.colSpan = 4;
      return [drawn[0], whole];
    }
    const [tag, , bounds, allows, from] = drawn;
    const full = fullWords(value, drawn);
    tag.title = full;
    const reach = cell("bounds", element("span", { title: `${value.base} to ${value.top}` }, boundsWords(value)),
      bounds.querySelector("svg"));
    from.title = from.textContent;
    from.textContent = from.textContent.replace(/^mem:([0-9a-f]+)$/, (words, address) => short(address));
    allows.title = allows.textContent;
    const sealed = value.type === "unsealed" ? null : allows.querySelector(".type").textContent.trim();
    if (sealed) allows.prepend(element("b", {}, `${sealed} `));
    allows.querySelector(".type").remove();
    return [tag, cell("word", element("code", { title: full }, short(value.word.split("_")[1]))), reach,
      allows, from];
  }

  /** A row that has a value's full form, below the row of its cells. */
  function fullRow(value, image, attributes = {}) {
    const words = value.tag ? fullWords(value, valueCells(value, image)) : value.word;
    const whole = cell("full", element("code", {}, words));
    whole.colSpan = COLUMNS.length + 1;
    return element("tr", { role: "row", class: "full", ...attributes }, whole);
  }

  return { COLUMNS, cells, fullRow, short, shorter, words };
})();
