/**
 * The piece of work that is open. An example, a link or a file is none until it is changed: then it gets a name and is
 * kept, and the address loses its fragment, so that a reload opens what was changed.
 */
const works = (() => {
  const part = (id) => document.getElementById(id);
  const { element } = draw;
  let current = { id: null, name: "", example: null };
  let isKept = true;
  let isOff = false;
  /** What is done with changes that aren't kept. */
  let pass = () => {};

  const option = ({ id, name }) => element("option", { value: id }, name);

  /** Name, state and menu of the pieces. */
  function show() {
    part("work-name").value = current.name;
    part("work-state").textContent = current.id === null ? "not changed" : isKept ? "kept in this browser"
      : "not kept: this browser refuses it";
    const pieces = isOff ? [] : store.all();
    const chosen = current.id ?? part("work").value;
    part("work").replaceChildren(...pieces.length ? pieces.map(option)
      : [element("option", { value: "" }, "none yet")]);
    if (pieces.some(({ id }) => id === chosen)) part("work").value = chosen;
    part("work-open").disabled = part("work-delete").disabled = pieces.length === 0;
  }

  /** Notes what is open: a piece of work, or else an example or nothing, which a reload opens again. */
  function opened({ id = null, name, example = null }) {
    current = { id, name, example };
    isKept = true;
    if (!isOff) store.setLast(id ? { id } : example);
    show();
  }

  /** What is open was changed: keeps it. */
  function changed(texts) {
    if (isOff) {
      pass(texts);
      return;
    }
    if (location.hash.length > 1) history.replaceState(null, "", location.href.split("#")[0]);
    const isNew = current.id === null;
    if (isNew) {
      current = { id: store.newId(), name: store.freeName(current.name || "my work"), example: null };
      store.setLast({ id: current.id });
    }
    const wasKept = isKept;
    isKept = store.write(current.id, { ...texts, name: current.name });
    if (isNew || isKept !== wasKept) show();
    if (wasKept && !isKept) notice.say("This browser doesn't keep what you type: download it before you leave.");
  }

  /** Gives the open piece another name; an empty one is none. */
  function rename(name, texts) {
    if (name.trim() === "" || name.trim() === current.name) return;
    current.name = name.trim();
    changed(texts);
    show();
  }

  /** The open piece with this text, where a link has what was kept last. */
  function kept({ listing, order, isAssembly }) {
    const last = store.last();
    const piece = last?.id ? store.read(last.id) : null;
    const isSame = piece && piece.listing === listing && piece.order === order
      && Boolean(piece.isAssembly) === isAssembly;
    return isSame ? piece : null;
  }

  /** Another tab changed the open piece: what is changed here from now on is a piece of its own. */
  function watch() {
    addEventListener("storage", ({ key }) => {
      if (current.id !== null && store.isPieceKey(key, current.id)) current = { ...current, id: null };
      show();
    });
  }

  return {
    changed, kept, opened, rename, show, watch,
    current: () => current,
    /** What was open last; nothing where nothing is kept. */
    last: () => (isOff ? null : store.last()),
    /** From now on nothing is kept: changes are passed to `take`. */
    turnOff: (take) => { [isOff, pass] = [true, take]; },
  };
})();
