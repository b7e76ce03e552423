/**
 * Pieces of work, kept in the browser by name: `dugyamir.work.ID` has one as JSON, `dugyamir.last` says what was open.
 * A browser may refuse to keep anything: then nothing is there, and `write` gives false.
 */
const store = (() => {
  const WORK = "dugyamir.work.";
  const LAST = "dugyamir.last";

  function tried(work, otherwise) {
    try {
      return work();
    } catch {
      return otherwise;
    }
  }

  const parsed = (key) => tried(() => JSON.parse(localStorage.getItem(key)), null);

  /** A piece of work, or nothing: what another program left there is none. */
  function read(id) {
    const piece = parsed(WORK + id);
    const isPiece = piece && [piece.name, piece.listing, piece.order].every((text) => typeof text === "string");
    return isPiece ? { points: [], ...piece, id } : null;
  }

  /** All pieces, the last changed first. */
  function all() {
    const keys = tried(() => Object.keys(localStorage), []);
    return keys.filter((key) => key.startsWith(WORK)).map((key) => read(key.slice(WORK.length)))
      .filter(Boolean).sort((one, other) => (other.changed ?? 0) - (one.changed ?? 0));
  }

  const put = (key, value) => tried(() => {
    localStorage.setItem(key, JSON.stringify(value));
    return true;
  }, false);

  const write = (id, piece) => put(WORK + id, { ...piece, id: undefined, example: undefined, changed: Date.now() });
  const remove = (id) => tried(() => localStorage.removeItem(WORK + id), null);

  /** A name that no piece has: the wished one, or that with a number. */
  function freeName(wished) {
    const names = new Set(all().map(({ name }) => name));
    for (let number = 1; ; number += 1) {
      const name = number === 1 ? wished : `${wished} ${number}`;
      if (!names.has(name)) return name;
    }
  }

  const newId = () => `${Date.now().toString(36)}${Math.floor(Math.random() * 1e6).toString(36)}`;

  return {
    all, freeName, newId, read, remove, write,
    isPieceKey: (key, id) => key === WORK + id,
    last: () => parsed(LAST),
    setLast: (what) => put(LAST, what),
  };
})();
