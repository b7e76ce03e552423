/** What is offered for a condition and for items: labels, places and phrases of the listing, as a person types. */
const offers = (() => {
  const RAM_ADDRESS = /\b0x8[0-9a-f]{7}\b/gi;
  const WORD_BYTES = 8n;
  const MOST_PLACES = 200;
  const PROPERTY = /^[ \t]*#! (?:never|always|sometimes|finally) (.*?)[ \t]*$/gm;
  const PHRASES = ["and", "or", "not", "any hart", "no hart", "two harts", "all harts", "is halted", "is trapped",
    "are halted", "are trapped", "at", "in", "reaches"];

  /** The aligned addresses of RAM that the listing names. */
  function addressesOf(listing) {
    const code = listing.split("\n").map((line) => line.split("#")[0]).join("\n");
    const all = [...code.matchAll(RAM_ADDRESS)].map(([address]) => BigInt(address));
    return [...new Set(all.map((address) => address - address % WORD_BYTES))]
      .map((address) => `mem8[0x${address.toString(16)}]`);
  }

  /** The places of the harts and of memory that a question may be about: statuses, registers, numbers of memory. */
  function placesOf(listing, harts) {
    const names = source.registersOf(listing).map((number) => `c${number}`);
    const ofHarts = ["status", ...names].flatMap((name) =>
      Array.from({ length: harts }, (_, hart) => `${hart}.${name}`));
    return [...addressesOf(listing), ...ofHarts].slice(0, MOST_PLACES);
  }

  /** Whole conditions: those of the listing's properties, and some of its labels. */
  function conditionsOf(listing, targets, harts) {
    const told = [...listing.matchAll(PROPERTY)].map(([, condition]) => condition);
    const names = targets.map(({ target }) => target);
    const ranges = names.slice(1).map((name, index) => `two harts in ${names[index]}..${name}`);
    return [...new Set([...told, ...(harts > 1 ? ranges : []), ...names.map((name) => `any hart at ${name}`),
      "any hart is trapped", "all harts are halted"])];
  }

  /** What was typed, with each word in place of its last one, which begins after one of these signs. */
  function completed(typed, words, signs) {
    const begin = typed.slice(0, typed.length - typed.split(signs).at(-1).length);
    return words.map((word) => `${begin}${word}`);
  }

  const fill = (list, texts) => list.replaceChildren(...texts.map((value) => draw.element("option", { value })));

  /** What is offered for the condition that is typed. */
  function ofCondition(typed, { listing, targets, harts }) {
    if (typed.trim() === "") return conditionsOf(listing, targets, harts);
    const places = placesOf(listing, harts).filter((place) => !place.endsWith(".status"));
    return completed(typed, [...targets.map(({ target }) => target), ...places, ...PHRASES], /[ (]|\.\./);
  }

  const ofItems = (typed, { listing, harts }) => completed(typed, placesOf(listing, harts), /,\s*/);

  return { fill, ofCondition, ofItems };
})();
