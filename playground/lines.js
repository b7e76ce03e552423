/** The line of the cursor, or the one that is pointed at: breakpoint, running to it, help on its instruction. */
const lines = (() => {
  const part = (id) => document.getElementById(id);
  const { code, listing } = desk;

  /** The instructions that a line of the text means: of a listing its own words. */
  function textsAt(line) {
    if (!assembly.isOn()) return [listing.value.split("\n")[line - 1]];
    return desk.read().isGood ? desk.programNow()?.textsAt(line) ?? [] : [];
  }

  function showHelp(line) {
    help.show(part("help"), textsAt(line), line);
  }

  /** What is said of the line of the cursor. */
  function showLine() {
    const line = code.caretLine();
    const isSet = points.all().includes(line);
    part("point").textContent = isSet ? `No breakpoint at line ${line}` : `Breakpoint at line ${line}`;
    part("run-here").textContent = `Run to line ${line}`;
    showHelp(line);
  }

  /** All of it, and the breakpoints. */
  function show() {
    const all = points.all();
    code.breakpoints(all);
    part("points-words").textContent = all.length === 0 ? ""
      : `Breakpoints: ${all.length === 1 ? "line" : "lines"} ${all.join(", ")}.`;
    part("points-clear").disabled = all.length === 0;
    showLine();
  }

  function toggle(line) {
    points.toggle(line);
    show();
  }

  function clear() {
    points.set([], listing.value);
    show();
  }

  function listen() {
    document.addEventListener("selectionchange", () => document.activeElement === listing && showLine());
    listing.addEventListener("pointermove", ({ clientY }) => showHelp(code.lineAt(clientY) ?? code.caretLine()));
    listing.addEventListener("pointerleave", () => showHelp(code.caretLine()));
    listing.addEventListener("keydown", (key) => {
      if (key.key !== "F9") return;
      key.preventDefault();
      toggle(code.caretLine());
    });
    part("point").addEventListener("click", () => toggle(code.caretLine()));
    part("run-here").addEventListener("click", () => runon.run(code.caretLine()));
    part("points-clear").addEventListener("click", clear);
  }

  desk.onPoint = toggle;

  return { listen, show };
})();
