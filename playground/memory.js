/** Memory in three forms: granules as capabilities, bytes with ASCII, words of 1 to 8 bytes. */
const memory = (() => {
  const { NULL, cell, element, row, table } = draw;
  const MOST_GRANULES = 256;
  const PER_GRANULE = 16;

  /** The 16 bytes of a word, the lowest first. */
  function bytesOf(word) {
    const digits = word.replace("_", "");
    return Array.from({ length: PER_GRANULE }, (_, at) => parseInt(digits.slice(30 - 2 * at, 32 - 2 * at), 16));
  }

  /** The numbers in a granule, each of so many bytes, in their order. */
  function numbersOf(word, size) {
    const bytes = bytesOf(word);
    return Array.from({ length: PER_GRANULE / size }, (_, index) => bytes.slice(index * size, (index + 1) * size)
      .reduceRight((sum, byte) => (sum << 8n) | BigInt(byte), 0n));
  }

  const hexOf = (number, size) => number.toString(16).padStart(2 * size, "0");
  const charOf = (byte) => (byte >= 0x20 && byte <= 0x7E ? String.fromCharCode(byte) : ".");
  const asciiOf = (word) => bytesOf(word).map(charOf).join("");

  /** The cells of a granule in a form, and their columns. */
  const FORMS = {
    capabilities: () => ({ columns: values.COLUMNS, cells: (value, image) => values.cells(value, image) }),
    bytes: () => ({ columns: ["Tag", "Bytes", "ASCII"],
      cells: (value) => [tagOf(value), texts([numbersOf(value.word, 1).map((one) => hexOf(one, 1)).join(" ")]),
        texts([asciiOf(value.word)])] }),
    hex: (size) => wordForm(size, (one) => `0x${hexOf(one, size)}`),
    decimal: (size) => wordForm(size, (one) => one.toString()),
  };

  const tagOf = (value) => draw.valueCells(value, { code: 0, ram: 0 })[0];
  const texts = (list) => cell("words", ...list.map((text) => element("code", {}, text)));

  function wordForm(size, write) {
    return { columns: ["Tag", `Words of ${size} byte${size === 1 ? "" : "s"}, the lowest address first`],
      cells: (value) => [tagOf(value), texts(numbersOf(value.word, size).map(write))] };
  }

  /** The granules that are tagged, not 0 or changed; of many those around the one in focus. */
  function granulesOf(state, changed, focus) {
    const changedOnes = [...changed.keys()].filter((place) => place.startsWith("mem "))
      .map((place) => place.slice(4));
    const all = [...new Set([...Object.keys(state.mem), ...changedOnes])].sort();
    const at = Math.max(all.findIndex((address) => focus !== null && address >= focus), 0);
    const first = Math.max(0, Math.min(at - MOST_GRANULES / 2, all.length - MOST_GRANULES));
    return { all, first, shown: all.slice(first, first + MOST_GRANULES) };
  }

  function captionOf({ all, first, shown }) {
    return shown.length === all.length ? "Granules of 16 bytes that are tagged or not 0"
      : `Granules ${first + 1} to ${first + shown.length} of the ${all.length.toLocaleString("en")}`
        + " that are tagged or not 0";
  }

  /** Draws memory into a place. `form` is one of `FORMS`, `size` the bytes of a word. */
  function show(place, state, { changed, image, focus, form, size, isFull }) {
    const granules = granulesOf(state, changed, focus);
    if (granules.all.length === 0) {
      place.replaceChildren(element("p", {}, "Memory is empty: no granule is tagged or not 0."));
      return;
    }
    const { columns, cells } = FORMS[form](size);
    const rows = granules.shown.flatMap((address) => {
      const { kind, mark } = registers.markOf(`mem ${address}`, changed);
      const value = state.mem[address] ?? NULL;
      const shown = row({ class: kind, "data-place": `mem ${address}` },
        [element("code", { title: address }, values.short(address)), mark && " ", mark].filter(Boolean),
        ...cells(value, image));
      return isFull && form === "capabilities" ? [shown, values.fullRow(value, image)] : [shown];
    });
    place.replaceChildren(table(`values short memory-${form}`, captionOf(granules), ["Granule", ...columns], rows));
  }

  return { bytesOf, numbersOf, show };
})();
