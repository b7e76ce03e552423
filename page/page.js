/** The page of an explained run: reads the three texts that the file holds, and goes by events. */
(() => {
  const textOf = (id) => document.getElementById(id).textContent;
  const part = (id) => document.getElementById(id);

  const { entries, events, image } = JSON.parse(textOf("explanation"));
  const run = replay.ofRun(JSON.parse(textOf("state")), events);
  const code = view.listing(part("listing-text"), JSON.parse(textOf("listing")));
  const list = view.eventList(part("events"), "Events of the run, in order",
    (index) => go(index + 1));
  const slider = part("slider");
  const marked = events.map((_, index) => index).filter((index) => view.isMarked(events[index]));
  let position = -1;

  /** Shows the moment after so many of the events. */
  function go(count) {
    const next = Math.min(Math.max(count, 0), events.length);
    if (next === position) return;
    position = next;
    const event = events[position - 1];
    const { state, changed } = run.at(position);
    const focus = Object.keys(event?.leaves ?? event?.finds ?? {})[0] ?? event?.at?.address ?? null;
    view.showEvent(part("words"), part("facts"), event, image,
      events.length ? `Before event ${events[0].number}.` : "No event is shown.");
    view.showHarts(part("harts"), state, changed, image, { [event?.hart]: "took this step" });
    view.showMemory(part("memory"), state, changed, image, focus);
    list.mark(position - 1);
    code.mark(event?.line, event?.outcome === "trap" ? "trap" : "");
    slider.value = position;
    const place = event ? `event ${event.number}` : "before the first event";
    slider.setAttribute("aria-valuetext", place);
    part("place").textContent = `${position} of ${events.length}`;
    part("first").disabled = part("back").disabled = position === 0;
    part("last").disabled = part("on").disabled = position === events.length;
    part("next-marked").disabled = nextMarked() === undefined;
  }

  const nextMarked = () => marked.find((index) => index + 1 > position);

  function isTyping(target) {
    return target.matches("input, textarea, select");
  }

  function begin() {
    part("summary").textContent = `${draw.plural(image.harts, "hart")}, `
      + `${draw.plural(image.code, "instruction")}, ${draw.plural(image.ram, "byte")} of RAM, `
      + `${draw.plural(entries, "event")} in the run`
      + (events.length < entries ? `, of which ${events.length} are shown.` : ".");
    part("count").textContent = `(${marked.length} of ${events.length})`;
    slider.max = events.length;
    list.show(events, false);
    go(marked.length > 0 ? marked[0] + 1 : Math.min(1, events.length));
  }

  slider.addEventListener("input", () => go(Number(slider.value)));
  part("first").addEventListener("click", () => go(0));
  part("back").addEventListener("click", () => go(position - 1));
  part("on").addEventListener("click", () => go(position + 1));
  part("last").addEventListener("click", () => go(events.length));
  part("next-marked").addEventListener("click", () => go(nextMarked() + 1));
  part("only-marked").addEventListener("change", (change) =>
    list.show(events, change.target.checked));
  document.addEventListener("keydown", (key) => {
    const to = { ArrowLeft: position - 1, ArrowRight: position + 1, Home: 0, End: events.length };
    if (key.altKey || key.ctrlKey || key.metaKey || isTyping(key.target)) return;
    if (to[key.key] === undefined) return;
    key.preventDefault();
    go(to[key.key]);
  });
  begin();
})();
