/** What is opened: examples, links, files and pieces of work, and how each comes back at a reload. */
const opening = (() => {
  const part = (id) => document.getElementById(id);
  const { code, listing, order } = desk;
  const FIRST_LISTING = ".hart 0x10000000 4 0x10000000 execute\necall\n";
  const FIRST_ASSEMBLY = "main:\n\tli\ta0, 42\n\tcret\n";
  let examples = [];

  const withoutFragment = () => location.href.split("#")[0];

  /** Opens texts as a piece of work, an example or a link, at a position or the end. */
  function open(piece) {
    listing.value = piece.listing;
    order.value = piece.order;
    assembly.turn(piece.isAssembly ?? false);
    changes.opened(piece);
    points.set(piece.points ?? [], piece.listing);
    works.opened(piece);
    gallery.choose(piece.listing);
    listing.setSelectionRange(0, 0);
    listing.scrollTop = 0;
    const isShown = desk.runTexts(piece.at);
    lines.show();
    if (isShown && piece.isMarked) desk.goToMarkedOrEnd();
  }

  /** What is open now, as it can be opened again. */
  const openNow = () => ({ ...changes.textsNow(), ...works.current() });

  /** Opens texts over what is open now, to which `undo` leads back. */
  function openOver(piece) {
    const old = openNow();
    if (location.hash.length > 1) history.replaceState(null, "", withoutFragment());
    open(piece);
    changes.noteUndo(() => open(old));
  }

  const exampleOf = ({ name, text, orders: list, isAssembly = false }, number) => ({
    name, listing: text, isAssembly, order: list[number]?.text ?? "", example: { example: name, number }, at: 0,
    isMarked: true,
  });

  /** Opens a listing of the gallery in one of its orders, at the first trap or cleared tag. */
  function openExample(example, number) {
    const piece = exampleOf(example, number);
    const { id, name } = works.current();
    if (id === null || !changes.isTyped()) openOver(piece);
    else {
      question.ask(`Open ${example.name} in place of your work "${name}"? That stays in My work, and Undo leads back.`,
        () => openOver(piece));
    }
  }

  /** A file becomes a piece of work, or the order of what is open. */
  async function openFile(file) {
    const found = await files.read(file);
    if (!found) notice.say(`${file.name} is too long: a listing has at most 1,048,576 bytes, assembly 4,194,304.`);
    else if (found.isOrder) changes.changeOrder(found.text, undefined);
    else {
      openOver({ name: found.name, listing: found.text, order: "", isAssembly: found.isAssembly, isTyped: true });
      changes.keep();
    }
  }

  function openWork() {
    const piece = store.read(part("work").value);
    if (piece) openOver(piece);
  }

  /** New work is read as what is open is. */
  function newWork() {
    const isAssembly = assembly.isOn();
    openOver({ name: "my work", listing: isAssembly ? FIRST_ASSEMBLY : FIRST_LISTING, order: "", isAssembly });
    changes.keep();
    code.goTo(1);
  }

  /** Deletes the chosen piece of work, which `undo` brings back; an open one stays open. */
  function deleteWork() {
    const piece = store.read(part("work").value);
    if (!piece) return;
    store.remove(piece.id);
    if (works.current().id === piece.id) works.opened({ name: piece.name });
    works.show();
    notice.say(`"${piece.name}" is deleted. Undo brings it back.`);
    changes.noteUndo(() => {
      store.write(piece.id, piece);
      works.show();
    });
  }

  // ------------------------------------------------------------------- links

  /** What a reload opens: the last piece of work or example, else the first example. */
  function lastPiece() {
    const last = works.last();
    const piece = last?.id ? store.read(last.id) : null;
    const example = examples.find(({ name }) => name === last?.example) ?? examples[0];
    return piece ?? exampleOf(example, last?.number ?? 0);
  }

  /** Opens what the fragment has, else what was open last. */
  async function openFirst() {
    const fragment = location.hash;
    const linked = fragment.length > 1 ? await share.read(fragment) : null;
    const isAsked = !linked && tools.isAsked(fragment);
    const kept = linked && works.kept(linked);
    if (linked) open({ ...linked, name: linked.name || "from a link", ...kept, at: linked.at });
    else if (fragment.length > 1 && fragment !== "#embed=1" && !isAsked) {
      open(exampleOf(examples[0], 0));
      notice.say("The link can't be read. This is the first example.");
    } else open(lastPiece());
    if (isAsked) tools.ask(fragment);
    if (linked?.ask) every.askLinked(linked.ask);
    document.documentElement.dataset.ready = "yes";
  }

  /**
   * Another link in the same tab: what was open stays in My work, and `undo` leads back. One that can't be read changes
   * nothing.
   */
  async function openLink() {
    if (location.hash.length <= 1 || tools.ask(location.hash)) return;
    const old = openNow();
    if (!await share.read(location.hash)) {
      history.replaceState(null, "", withoutFragment());
      notice.say("The link can't be read. What was open stays.");
      return;
    }
    await openFirst();
    changes.noteUndo(() => {
      history.replaceState(null, "", withoutFragment());
      open(old);
    });
  }

  /** The fragment of what is open now. */
  function fragmentNow(isForPage) {
    const { name } = works.current();
    return share.fragmentOf(listing.value, order.value,
      { at: desk.position(), ...(name && { name }), ...(assembly.isOn() && { asm: 1 }), ...(isForPage && { embed: 1 }) });
  }

  async function makeLink() {
    const isForPage = part("share-embed").checked;
    const kind = assembly.isOn() ? "assembly" : "listing";
    const fragment = await fragmentNow(isForPage);
    const link = withoutFragment() + fragment;
    const isShort = link.length <= share.MOST_CHARACTERS;
    part("share-link").value = isShort ? link : "";
    if (!isShort) {
      part("share-words").textContent = `A link would have ${link.length.toLocaleString("en")}`
        + ` characters, which is too long: download the ${kind} and the order.`;
      return;
    }
    if (!isForPage) history.replaceState(null, "", fragment);
    part("share-words").textContent = `The link has the ${kind}, the order and the position.`;
    part("share-link").select();
  }

  /** Within another page there is no gallery, and nothing is kept: a link to the whole page takes what was changed along. */
  function beginEmbedded() {
    if (!share.isEmbedded(location)) return;
    document.documentElement.dataset.embed = "yes";
    const whole = location.href.replace(/[?&]embed=1(?=&|$|#)/, "").replace("#embed=1", "");
    works.turnOff(async () => { part("whole-page").href = whole.split("#")[0] + await fragmentNow(false); });
    part("whole-page").href = whole;
  }

  /** Takes the gallery, and opens the first texts. */
  function begin(list) {
    examples = list;
    beginEmbedded();
    gallery.begin(examples, openExample);
    works.watch();
    addEventListener("hashchange", openLink);
    return openFirst();
  }

  return { begin, deleteWork, makeLink, newWork, openFile, openWork };
})();
