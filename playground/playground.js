/** The playground: which control does what, and how the page begins. */
(() => {
  const part = (id) => document.getElementById(id);
  const { listing, order } = desk;
  const { STATUS } = machine;

  function onClick(id, work) {
    part(id).addEventListener("click", work);
  }

  function onSubmit(id, work) {
    part(id).addEventListener("submit", (submit) => {
      submit.preventDefault();
      work();
    });
  }

  /** Goes to the next event that passes a test, or says that there is none. */
  function onNext(id, test, words) {
    onClick(id, () => {
      if (desk.goToNext(test)) return;
      notice.say(words);
      part(id).disabled = true;
    });
  }

  function listenToPosition() {
    part("slider").addEventListener("input", () => desk.go(Number(part("slider").value)));
    onClick("run", () => runon.run());
    onClick("first", () => desk.go(0));
    onClick("back", () => desk.go(desk.position() - 1));
    onClick("on", () => desk.go(desk.position() + 1));
    onClick("last", () => desk.go(desk.shown()?.length));
    onNext("next-trap", (event) => event.outcome === "trap", "No trap comes after this.");
    onNext("next-cleared", (event) => event.clears !== undefined, "No cleared tag comes after this.");
    onClick("steps", ({ target }) => {
      if (target.dataset.hart) changes.step(Number(target.dataset.hart));
    });
    onClick("undo", changes.undo);
    onClick("earlier", () => changes.moveMarked(-1));
    onClick("later", () => changes.moveMarked(1));
    part("mode").addEventListener("change", () => { part("mode-seed").hidden = part("mode").value !== "random"; });
    part("memory-form").addEventListener("change", ({ target }) => {
      part("memory-bytes").disabled = !["hex", "decimal"].includes(target.value);
    });
    part("assembly").addEventListener("change", changes.turned);
    part("meant").addEventListener("toggle", desk.judgeListing);
    for (const id of ["full", "memory-form", "memory-bytes"]) {
      part(id).addEventListener("change", () => desk.go(desk.position(), false));
    }
  }

  // ------------------------------------------------------------------- work

  /** The explanation: of assembly by the map of its program. */
  function explained(meant) {
    if (!assembly.isOn()) return machine.explain(meant, order.value, 0, runs.LAST);
    const map = desk.mapNow();
    return map.status === STATUS.DONE ? machine.explainMap(meant, order.value, map.text, 0, runs.LAST) : map;
  }

  /** What is answered for each file; where the text is faulty that is its fault. */
  const ANSWERS = {
    "listing.lst": (meant) => ({ status: STATUS.DONE, text: meant }),
    "program.map": () => desk.mapNow(),
    "report.txt": (meant) => machine.run(meant, order.value),
    "report.json": (meant) => machine.json(meant, order.value),
    "explanation.txt": explained,
  };

  /** The bytes that the programs give for what is in the fields. */
  function fileOf(name) {
    const isOfEditor = name === (assembly.isOn() ? "assembly.s" : "listing.lst");
    if (isOfEditor) return listing.value;
    if (name === "order.txt") return order.value;
    const { answer, isGood: isMeant, listing: meant } = desk.read();
    const answered = isMeant ? ANSWERS[name](meant) : answer;
    const isGood = answered.status === STATUS.DONE || answered.status === STATUS.STEP;
    part("share-words").textContent = isGood ? "" : `No ${name}: ${answered.line}`;
    return isGood ? answered.text : null;
  }

  function download(name) {
    const text = fileOf(name);
    if (text !== null) files.download(name, text);
  }

  function listenToWork() {
    listing.addEventListener("input", changes.typedListing);
    order.addEventListener("input", changes.typedOrder);
    onClick("work-open", opening.openWork);
    onClick("work-delete", opening.deleteWork);
    onClick("work-new", opening.newWork);
    part("work-name").addEventListener("change", ({ target }) => works.rename(target.value, changes.textsNow()));
    onClick("share", opening.makeLink);
    onClick("notice-close", notice.hush);
    onClick("print", () => print());
    onClick("downloads", ({ target }) => {
      if (target.dataset.file) download(target.dataset.file);
    });
    files.watch(part("file-open"), part("file"), opening.openFile);
    addEventListener("pagehide", changes.leave);
    addEventListener("beforeprint", () => { part("printed").textContent = listing.value; });
  }

  // ------------------------------------------------------------------- harts

  function onKey(key) {
    if (key.ctrlKey && key.key === "Enter") {
      key.preventDefault();
      runon.run();
    }
    const digit = /^Digit([0-7])$/.exec(key.code);
    if (key.altKey && digit) {
      key.preventDefault();
      changes.step(Number(digit[1]));
    }
  }

  function listenToHarts() {
    onSubmit("sweep", changes.sweep);
    onSubmit("race", runon.drawRace);
    document.addEventListener("keydown", onKey);
  }

  // ---------------------------------------------------------------------- begin

  /** What this browser lacks, or nothing. */
  function lacking() {
    if (typeof WebAssembly === "undefined") return "WebAssembly (Chromium 57, Firefox 52 or later)";
    if (typeof DecompressionStream === "undefined") {
      return "CompressionStream (Chromium 103, Firefox 113 or later)";
    }
    return null;
  }

  const dataOf = (id) => JSON.parse(part(id).textContent);

  async function begin() {
    const missing = lacking();
    if (missing) {
      part("banner").hidden = false;
      part("banner").textContent = `This browser lacks ${missing}, so nothing can be run here.`;
      return;
    }
    machine.begin(await share.unpacked(part("module-data").textContent.trim()));
    help.begin(dataOf("help-data"));
    faulty.begin(dataOf("fault-data"));
    [notice.begin, question.begin, lines.listen, tools.listen, every.listen, listenToPosition, listenToWork, listenToHarts]
      .forEach((work) => work());
    opening.begin(dataOf("gallery-data"));
  }

  begin();
})();
