/** Elements, tables, and capabilities as cells and bars: what the view is made of. */
const draw = (() => {
  const CODE_BASE = 0x10000000n;
  const RAM_BASE = 0x80000000n;
  const ADDRESS_SPACE = 1n << 64n;
  const INSTRUCTION_BYTES = 4n;

  /** Names of permissions by their bit; the standard leaves bits 12 to 14 unused. */
  const PERMISSIONS = [
    "global", "execute", "load", "store", "load_cap", "store_cap", "store_local", "seal",
    "cinvoke", "unseal", "sysregs", "set_cid", null, null, null, "sw0", "sw1", "sw2", "sw3",
  ];

  // ---------------------------------------------------------------- elements

  /** A new element with these attributes; text among the children stays text. */
  function element(name, attributes, ...children) {
    const made = document.createElement(name);
    for (const [key, value] of Object.entries(attributes ?? {})) {
      if (value === true) made.setAttribute(key, "");
      else if (value !== false && value != null) made.setAttribute(key, value);
    }
    made.append(...children.filter((child) => child != null));
    return made;
  }

  /** The same for a drawing. */
  function shape(name, attributes, ...children) {
    const made = document.createElementNS("http://www.w3.org/2000/svg", name);
    for (const [key, value] of Object.entries(attributes)) made.setAttribute(key, value);
    made.append(...children);
    return made;
  }

  /** A table whose roles hold also where a narrow screen lays its cells out as blocks. */
  function table(kind, caption, columns, rows) {
    const heads = columns.map((column) =>
      element("th", { scope: "col", role: "columnheader" }, column));
    return element("table", { class: kind, role: "table" },
      element("caption", {}, caption),
      element("thead", { role: "rowgroup" }, element("tr", { role: "row" }, ...heads)),
      element("tbody", { role: "rowgroup" }, ...rows));
  }

  function row(attributes, name, ...cells) {
    return element("tr", { role: "row", ...attributes },
      element("th", { scope: "row", role: "rowheader" }, ...name), ...cells);
  }

  function cell(kind, ...children) {
    return element("td", { class: kind, role: "cell" }, ...children);
  }

  function plural(count, one) {
    return `${count.toLocaleString("en")} ${one}${count === 1 ? "" : "s"}`;
  }

  // ------------------------------------------------------------------ values

  function permissionNames(perms) {
    const bits = parseInt(perms, 16);
    return PERMISSIONS.filter((name, bit) => name !== null && (bits >> bit) & 1);
  }

  /** The number in an untagged word whose upper half is zero, else nothing. */
  function integerOf(value) {
    const [upper, lower] = value.word.split("_");
    return !value.tag && /^0+$/.test(upper) ? BigInt("0x" + lower) : null;
  }

  /**
   * Where an address lies on a bar from 0 to 100. Code and RAM are drawn to scale; what lies
   * below, between and above them is squeezed, but in order: so no bound is cut off.
   */
  function scaleOf(image) {
    const stops = [
      [0n, 0], [CODE_BASE, 6], [CODE_BASE + INSTRUCTION_BYTES * BigInt(image.code), 38],
      [RAM_BASE, 44], [RAM_BASE + BigInt(image.ram), 94], [ADDRESS_SPACE, 100],
    ];
    const at = (address) => {
      const next = stops.findIndex(([end]) => address <= end);
      if (next <= 0) return next === 0 ? 0 : 100;
      const [[from, left], [to, right]] = [stops[next - 1], stops[next]];
      if (from === to) return right;
      return left + (right - left) * Number(address - from) / Number(to - from);
    };
    return { at, code: [stops[1][1], stops[2][1]], ram: [stops[3][1], stops[4][1]] };
  }

  /** Which of code and RAM the bounds reach, in words. */
  function reachWords(base, top, image) {
    const meets = (from, bytes) => base < from + bytes && from < top;
    const words = [];
    if (meets(CODE_BASE, INSTRUCTION_BYTES * BigInt(image.code))) words.push("code");
    if (meets(RAM_BASE, BigInt(image.ram))) words.push("RAM");
    if (base >= top) return "reaches no byte";
    return words.length ? `reaches ${words.join(" and ")}` : "reaches neither code nor RAM";
  }

  /** The bounds of a capability as a bar over code and RAM, its address as a line. */
  function bar(value, image) {
    const scale = scaleOf(image);
    const [base, top] = [BigInt("0x" + value.base), BigInt("0x" + value.top)];
    const address = BigInt("0x" + value.word.split("_")[1]);
    const [left, right, place] = [base, top, address].map(scale.at);
    const region = ([from, to], name) =>
      shape("rect", { class: `region ${name}`, x: from, y: 3, width: to - from, height: 8 });
    return shape("svg", {
      class: "bar", viewBox: "0 0 100 14", preserveAspectRatio: "none", role: "img",
      "aria-label": reachWords(base, top, image), "data-base": value.base, "data-top": value.top,
    },
    region(scale.code, "code"), region(scale.ram, "ram"),
    shape("rect", { class: "reach", x: left, y: 1, width: Math.max(right - left, 0), height: 12 }),
    shape("line", { class: "address", x1: place, x2: place, y1: 0, y2: 14 }));
  }

  /** The cells of a value: tag, word, bounds, what they allow, and where the value comes from. */
  function valueCells(value, image) {
    const [upper, lower] = value.word.split("_");
    const number = integerOf(value);
    const word = [element("code", {}, upper + "_", element("wbr"), lower)];
    if (number !== null) word.push(element("span", { class: "number" }, ` = ${number}`));
    const tag = cell("tag", element("span", { class: value.tag ? "is-tagged" : "is-untagged" },
      value.tag ? "1" : "0"));
    if (!value.tag) {
      return [tag, cell("word", ...word), cell("bounds empty"), cell("allows empty"),
        cell("from empty")];
    }
    const type = value.type === "unsealed" ? "unsealed"
      : value.type === "sentry" ? "sealed: sentry" : `sealed: type ${value.type}`;
    return [tag, cell("word", ...word),
      cell("bounds", element("code", {}, value.base, element("wbr"), " ", value.top),
        bar(value, image)),
      cell("allows", permissionNames(value.perms).join(" ") || "nothing",
        element("span", { class: "type" }, ` ${type}`)),
      cell("from", value.from ?? "")];
  }

  const VALUE_COLUMNS = ["Tag", "Word", "Bounds", "Allows", "From"];
  const NULL = { tag: false, word: "0000000000000000_0000000000000000" };

  return { NULL, VALUE_COLUMNS, cell, element, plural, row, table, valueCells };
})();
