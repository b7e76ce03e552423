/** Changes of the two texts: each is kept, and each but typing in the listing can be taken back. */
const changes = (() => {
  const part = (id) => document.getElementById(id);
  const { listing, order } = desk;
  const MOST_UNDOS = 200;

  let undos = [];
  let keepLater = 0;
  /** Whether the last change of the order was typed, and the order before the next one. */
  let isTyping = false;
  let orderBefore = "";
  /** Whether something of the open work was typed, and not only clicked. */
  let isTyped = false;

  // -------------------------------------------------------------- what is kept

  /** What is kept of a piece of work, as it is now. */
  const textsNow = () => ({
    listing: listing.value, order: order.value, points: points.all(), at: desk.position(), isTyped,
    isAssembly: assembly.isOn(),
  });

  function keepNow() {
    clearTimeout(keepLater);
    keepLater = 0;
    works.changed(textsNow());
  }

  /** What the person has changed is kept: at once, or where it is long a little later. */
  function keep() {
    clearTimeout(keepLater);
    if (desk.isLarge()) keepLater = setTimeout(keepNow, desk.LATER_MS);
    else keepNow();
  }

  /** Notes that other texts were opened. */
  function opened(piece) {
    orderBefore = piece.order;
    isTyping = false;
    isTyped = piece.isTyped ?? false;
  }

  // ------------------------------------------------------------------ the way back

  function showUndo() {
    part("undo").disabled = undos.length === 0;
  }

  /** Notes how the next change is taken back. */
  function noteUndo(back) {
    undos.push(back);
    if (undos.length > MOST_UNDOS) undos.shift();
    showUndo();
  }

  function undo() {
    isTyping = false;
    undos.pop()?.();
    showUndo();
  }

  /** What brings back an order and a position. */
  const backTo = (text, at) => () => {
    order.value = orderBefore = text;
    desk.runTexts(at);
    keep();
  };

  // ---------------------------------------------------------------------- changes

  /** Puts another order into the field, which `undo` takes back, and goes to a position of it. */
  function changeOrder(text, at) {
    isTyping = false;
    noteUndo(backTo(order.value, desk.position()));
    order.value = orderBefore = text;
    desk.runTexts(at);
    keep();
  }

  function typedOrder() {
    if (!isTyping) noteUndo(backTo(orderBefore, desk.position()));
    isTyping = isTyped = true;
    orderBefore = order.value;
    desk.runTexts(undefined);
    keep();
  }

  function typedListing() {
    isTyped = true;
    points.follow(listing.value);
    lines.show();
    desk.runTextsLater();
    keep();
  }

  /** Reads the text as assembly, or as a listing again. */
  function turn(isAssembly) {
    assembly.turn(isAssembly);
    desk.runTexts(desk.position());
    lines.show();
    keep();
  }

  function turned() {
    const isAssembly = assembly.isOn();
    noteUndo(() => turn(!isAssembly));
    turn(isAssembly);
  }

  function step(hart) {
    const button = part("steps").children[hart];
    if (!button || button.disabled || !desk.isReady()) return;
    changeOrder(orders.withStep(order.value, desk.position(), hart), desk.position() + 1);
    part("steps").children[hart].focus();
  }

  /** One step comes at the moment of another. Gives whether it does. */
  function moveStep(from, to) {
    if (!desk.isReady() || desk.shown().order !== order.value) return false;
    changeOrder(orders.withMoved(order.value, from, to), to + 1);
    return true;
  }

  /** The step that led to the position comes so many moments later. */
  const moveMarked = (later) => moveStep(desk.position() - 1, desk.position() - 1 + later);

  function sweep() {
    if (!desk.isReady()) return;
    const [low, high] = ["sweep-low", "sweep-high"].map((id) => part(id).value.trim());
    changeOrder(orders.withSweep(order.value, desk.position(), low, high), desk.position() + 1);
  }

  desk.onMove = (from, to) => moveStep(from, to) && desk.diagram.focus(to);

  return {
    changeOrder, keep, moveMarked, noteUndo, opened, step, sweep, textsNow, turned, typedListing, typedOrder,
    undo,
    isTyped: () => isTyped,
    leave: () => keepLater && keepNow(),
  };
})();
