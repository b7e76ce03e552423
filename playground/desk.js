/** The two texts, the run that they mean, and the position that is shown of it. */
const desk = (() => {
  const part = (id) => document.getElementById(id);
  const { STATUS } = machine;

  /** So many events are listed before and after a multiple of it near the position. */
  const WINDOW = 25;
  /** A listing above it is judged at once, and run and kept a little later. */
  const LARGE_LISTING = 65_536;
  const LATER_MS = 150;

  const listing = part("listing");
  const order = part("order");
  const code = editor.over(listing, part("gutter"), part("bars"), (line) => desk.onPoint(line));
  const list = view.eventList(part("events"), "Events of the run, in order", pickEvent);
  const diagram = times.over(part("times"), pickTime, (from, to) => desk.onMove(from, to));

  /** The text that was judged last, what it means, and its fault. */
  let judged = null;
  /** The last good listing and order, how long they run, and what is shown of them. */
  let shown = null;
  let position = 0;
  let events = [];
  let later = 0;

  // ----------------------------------------------------------------- judging

  /** What the text in the editor means: its fault, or its listing. */
  function read() {
    const [text, isAssembly] = [listing.value, assembly.isOn()];
    if (judged?.text === text && judged.isAssembly === isAssembly && judged.answer.status !== STATUS.MEMORY) return judged;
    const answer = isAssembly ? machine.assemble(text) : machine.check(text);
    judged = { text, isAssembly, answer, isGood: answer.status === STATUS.DONE, listing: isAssembly ? answer.text : text };
    return judged;
  }

  /** The faults of the text that are shown: of a listing that isn't long each faulty line's, else the first. */
  function faultsNow() {
    const { text, answer, isGood } = read();
    if (isGood) return [];
    const isOfLine = answer.status === STATUS.LISTING && answer.place > 0 && text.length < LARGE_LISTING;
    judged.faults ??= faulty.marked(isOfLine ? runs.faultsOf(text) : [answer], text);
    return judged.faults;
  }

  /** Judges the text, and marks its faulty lines. Gives its first fault's line, or nothing where it is good. */
  function judgeListing() {
    const { answer, isGood, listing: meant } = read();
    const found = faultsNow();
    code.faults(faulty.partsOf(found));
    faulty.showListing(found, code.goTo);
    assembly.showMeant(isGood ? meant : null);
    desk.onJudged();
    return isGood ? "" : answer.line;
  }

  const kind = () => (assembly.isOn() ? "assembly" : "listing");

  /** Whether the text can be run; else that is said. */
  function isReady() {
    const fault = judgeListing();
    if (fault) notice.say(`Nothing is run: the ${kind()} is faulty (${fault}). Mend it first.`);
    return fault === "";
  }

  /** The map of the assembly in the editor, as the module answers it. */
  const mapNow = () => machine.map(listing.value, assembly.fileOf(works.current().name));

  /** The program of the text in the editor, which is good; of assembly nothing where memory ran out. */
  function programNow() {
    const { text, isAssembly, listing: meant } = read();
    if (!isAssembly) judged.program ??= assembly.ofListing(meant);
    else if (!judged.program) {
      const { status, text: map } = mapNow();
      if (status === STATUS.DONE) judged.program = assembly.ofAssembly(text, meant, map);
    }
    return judged.program ?? null;
  }

  /** The words that what is shown is no longer of the texts above; nothing where it is. */
  function showStale(words) {
    part("stale").textContent = shown ? words : "";
    part("machine").classList.toggle("dimmed", Boolean(words) && shown !== null);
  }

  // --------------------------------------------------------------- the machine

  /** What the image of the program in the editor has. */
  const imageNow = () => (shown?.listing === read().listing ? shown.image : runs.imageOf(read().listing));

  /** Runs both texts, and goes to a position of the run: its end for none. Gives whether there is one. */
  function runTexts(at, isFollowed = true) {
    clearTimeout(later);
    if (judgeListing()) {
      showStale(`of the last good ${kind()}`);
      return false;
    }
    const { listing: meant } = read();
    const found = runs.endOf(meant, order.value);
    faulty.showOrder(found, order.value);
    const program = found.isRun && programNow();
    if (!program) {
      showStale(found.status === STATUS.ORDER ? "of the last good order" : "out of memory");
      return false;
    }
    const ofListing = shown?.listing === meant ? shown : { listing: meant, registers: source.registersOf(meant),
      image: runs.imageOf(meant) };
    shown = { ...ofListing, program, order: order.value, length: found.at };
    events = [];
    showStale("");
    go(at ?? shown.length, isFollowed);
    return true;
  }

  /** The same after a while, for long listings. */
  function runTextsLater() {
    clearTimeout(later);
    if (listing.value.length < LARGE_LISTING) runTexts(position, false);
    else if (judgeListing()) showStale(`of the last good ${kind()}`);
    else later = setTimeout(() => runTexts(position, false), LATER_MS);
  }

  /** The numbers of the events to be listed at a position. */
  function windowAt(at) {
    if (shown.length <= 2 * WINDOW) return [0, Math.max(shown.length - 1, 0)];
    const middle = Math.floor(at / WINDOW) * WINDOW;
    return [Math.max(0, middle - WINDOW), middle + 2 * WINDOW - 1];
  }

  const lookAt = (at, from, to) => JSON.parse(machine.look(shown.listing, shown.order, at, from, to).text);

  /** Lists these events, where others are listed. */
  function showEvents(found, from, harts) {
    if (events.length > 0 && events[0].number === from && events.length === found.length) return;
    events = found.map((event) => facts.inWords(event, shown.program));
    list.mark(-1);
    list.show(events, false);
    diagram.show(events, harts, shown.length);
  }

  /**
   * Goes to the moment after so many operations. What reads sizes, the editor and the lists, is drawn
   * first: so the browser lays the rest out once.
   */
  function go(count, isFollowed = true) {
    if (!shown) return;
    position = Math.min(Math.max(count, 0), shown.length);
    const [from, to] = windowAt(position);
    const now = lookAt(position, from, to);
    const before = position > 0 ? lookAt(position - 1, 1, 0).state : now.state;
    const event = facts.inWords(now.events.find(({ number }) => number === position - 1), shown.program);
    const next = now.next.map((line) => line && shown.program.lineOf(line));
    const line = next[event?.hart ?? 0] ?? event?.line ?? next.find(Boolean);
    if (isFollowed && line) code.follow(line);
    code.next(next, event?.outcome === "trap" ? event.line ?? null : null);
    showEvents(now.events, from, now.state.harts.length);
    const index = events.findIndex(({ number }) => number === position - 1);
    list.mark(index);
    diagram.mark(index);
    moment.show(shown, now, event, view.differences(before, now.state));
    moment.showControls(position, shown.length, now.state, event);
  }

  /** The event that led to the position; none at the first. */
  const lastEvent = () => events.find(({ number }) => number === position - 1);

  /** Goes to the next event after the position that passes a test. Gives whether there is one. */
  function goToNext(test) {
    const found = shown && runs.find(shown.listing, shown.order, position, shown.length, test);
    if (found) go(found.number + 1);
    return Boolean(found);
  }

  /** Goes to the first trap or cleared tag, or to the end. */
  function goToMarkedOrEnd() {
    const marked = runs.find(shown.listing, shown.order, 0, shown.length, view.isMarked);
    go(marked ? marked.number + 1 : shown.length);
  }

  function pickEvent(index) {
    go(events[index].number + 1);
    // The list may have been drawn anew around the event.
    queueMicrotask(() => {
      if (document.activeElement?.closest("#events") || document.activeElement === document.body) {
        part("events").querySelector("tr[aria-current] button")?.focus();
      }
    });
  }

  function pickTime(index) {
    const { number } = events[index];
    go(number + 1);
    diagram.focus(number);
  }

  return {
    LATER_MS, code, diagram, go, goToMarkedOrEnd, goToNext, imageNow, isReady, judgeListing, lastEvent, listing, mapNow,
    order, programNow, read, runTexts, runTextsLater,
    isLarge: () => listing.value.length >= LARGE_LISTING,
    position: () => position,
    shown: () => shown,
    /** What is done where the text was judged, a breakpoint is asked for, or a step is moved in the diagram. */
    onJudged: () => {},
    onPoint: () => {},
    onMove: () => {},
  };
})();
