/** One moment of the run as the page shows it: what happened, harts, facts, memory, and the controls. */
const moment = (() => {
  const part = (id) => document.getElementById(id);
  const { element } = draw;

  /** Draws a part of the page anew. What is drawn as before stays, and needn't be laid out again. */
  function update(id, drawInto) {
    const [place, drawn] = [part(id), element("div")];
    drawInto(drawn);
    const children = [...drawn.children];
    children.forEach((child, index) => {
      const old = place.children[index];
      if (!old) place.append(child);
      else if (!old.isEqualNode(child)) old.replaceWith(child);
    });
    while (place.children.length > children.length) place.lastElementChild.remove();
  }

  /** What is said beside a hart's name. */
  function notesOf(state, next, event, { nameOf }) {
    return state.harts.map((hart, number) => [
      event?.hart === number ? "took this step" : null,
      next[number] != null ? `next is ${nameOf(next[number])}` : null,
    ].filter(Boolean).join("; "));
  }

  function nextWords(next, { nameOf }) {
    const words = next.map((line, hart) => line != null && `hart ${hart}: ${nameOf(line)}`).filter(Boolean);
    return words.length > 0 ? `Next: ${words.join(", ")}` : "No hart has a next instruction.";
  }

  /** Draws harts, memory and the reasons of a position of a run. */
  function show({ registers: named, image, length, program }, { state, next }, event, changed) {
    const isFull = part("full").checked;
    const focus = Object.keys(event?.leaves ?? event?.finds ?? {})[0] ?? event?.at?.address ?? null;
    view.showEvent(part("words"), element("div"), event, image,
      length > 0 ? "Before the first operation." : "The order is empty: step a hart, or press Run.");
    part("words").scrollTop = 0;
    const notes = notesOf(state, next, event, program);
    update("harts", (place) => registers.show(place, state, named, { changed, image, notes, isFull }));
    update("facts", (place) => facts.show(place, event, image, isFull));
    update("memory", (place) => memory.show(place, state, { changed, image, focus, isFull,
      form: part("memory-form").value, size: Number(part("memory-bytes").value) }));
    part("listing-next").textContent = part("listing-next").title = nextWords(next, program);
  }

  /** Buttons, slider and the position in words. */
  function showControls(position, length, state, event) {
    const slider = part("slider");
    slider.max = length;
    slider.value = position;
    slider.setAttribute("aria-valuetext", event ? `after event ${event.number}` : "before the first event");
    part("place").textContent = `${position} of ${length}`;
    part("first").disabled = part("back").disabled = position === 0;
    for (const id of ["last", "on", "next-trap", "next-cleared"]) part(id).disabled = position === length;
    part("earlier").disabled = position <= 1;
    part("later").disabled = position === 0 || position === length;
    const steps = part("steps");
    if (steps.childElementCount !== state.harts.length) {
      steps.replaceChildren(...state.harts.map((_, hart) => element("button",
        { type: "button", "data-hart": hart, title: `Alt+${hart}` }, `step hart ${hart}`)));
    }
    state.harts.forEach((hart, number) => {
      steps.children[number].disabled = hart.status !== "running";
    });
    showModes(state.harts.length);
  }

  /** The ways to run on: in turn, one hart alone, at random. */
  function showModes(harts) {
    const mode = part("mode");
    if (mode.childElementCount === harts + 2) return;
    const chosen = mode.value;
    const alone = Array.from({ length: harts }, (_, hart) => [String(hart), `hart ${hart} alone`]);
    mode.replaceChildren(...[["turns", "harts in turn"], ...alone, ["random", "at random"]]
      .map(([value, words]) => element("option", { value }, words)));
    if ([...mode.options].some(({ value }) => value === chosen)) mode.value = chosen;
    part("mode-seed").hidden = mode.value !== "random";
  }

  return { show, showControls };
})();
