/**
 * The two fields of the tools. A word as reports write it, and 16 or 17 hexadecimal digits with a leading zero as they
 * write addresses, are hexadecimal; all else is read as on a command line.
 */
const fields = (() => {
  const WORD = /^([0-9a-f]{16})_([0-9a-f]{16})$/i;
  const PADDED = /^0[0-9a-f]{15,16}$/i;
  const NUMBER = /^(0x[0-9a-f]+|[0-9]+)$/i;

  /** The text that a call takes for what was typed. */
  function argumentOf(typed) {
    const text = typed.trim();
    const word = WORD.exec(text);
    if (word) return `0x${word[1]}${word[2]}`;
    return PADDED.test(text) ? `0x${text}` : text;
  }

  /** How a text is read, in words; nothing where it is no number. */
  function readWords(typed) {
    const text = argumentOf(typed);
    return NUMBER.test(text) && !text.startsWith("0X") ? `read as 0x${BigInt(text).toString(16)}` : "";
  }

  /** Says below a field how it is read, now and at each change. */
  function watch(field, words) {
    const show = () => { words.textContent = readWords(field.value); };
    field.addEventListener("input", show);
    show();
  }

  return { argumentOf, readWords, watch };
})();
