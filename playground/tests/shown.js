/** What is shown of a run, and how one is made: places, words, runs, memory, the diagram, help; in either browser. */
"use strict";
const { HEAD, choose, click, enter, forget, openExample, openOver, textOf, valueOf } = require("./hands.js");

// ------------------------------------------------------------------- what is seen

/** Of each run of the gallery: how far a register's place moves over all steps. Runs in the page. */
function longestMove() {
  const shows = (id) => document.getElementById(id);
  const places = () => new Map([...document.querySelectorAll("#harts [data-place], #harts h3")].map((one) =>
    [one.dataset.place ?? one.id, one.getBoundingClientRect().top + scrollY]));
  const moves = [];
  let positions = 0;
  // what is below the harts doesn't move them, and takes long to draw
  for (const below of document.querySelectorAll(".sides ~ *")) below.style.display = "none";
  for (const example of shows("example").options) {
    shows("example").value = example.value;
    shows("example").dispatchEvent(new Event("change"));
    for (const button of [...document.querySelectorAll("#example-orders button")]) {
      button.click();
      shows("first").click();
      const first = places();
      for (let at = 0; at <= Number(shows("slider").max); at += 1, positions += 1) {
        shows("slider").value = at;
        shows("slider").dispatchEvent(new Event("input"));
        const now = places();
        const far = Math.max(...[...first].map(([place, y]) => Math.abs(y - (now.get(place) ?? Infinity))));
        if (far > 0 || now.size !== first.size) moves.push([example.value, at, far, first.size, now.size]);
      }
    }
  }
  return { moves, positions };
}

async function checkPlaces(one, say) {
  await one.screen(1280, 800);
  await forget(one);
  const { moves, positions } = await one.ask(longestMove);
  say(`registers move by 0 pixels over ${positions} positions of all examples`, moves.length === 0 && positions > 300,
    moves.slice(0, 3));
  await forget(one);
  await openExample(one, "leak");
  const facts = await one.ask(() => [...document.querySelectorAll("#facts td")].filter((cell) =>
    cell.getBoundingClientRect().height > 40).map((cell) => cell.textContent));
  const rows = await one.ask(() => document.querySelectorAll("#facts tbody tr").length);
  say("what an event reads and writes stands in lines of one line each", facts.length === 0 && rows > 0, facts);
  const row = await one.ask(() => document.querySelector('[data-place="0:c5"]')?.textContent ?? "");
  say("bounds are short, with the length", row.includes("16 bytes from 0x80000000"), row);
  const lesson = await one.ask(() => document.querySelector("#example-lesson a")?.getAttribute("href"));
  say("an example leads to its part of the lesson", /^lesson\.html#part-\d+$/.test(lesson), lesson);
  await click(one, "full");
  const full = await textOf(one, "harts");
  say("the full form is there on demand", full.includes("0000000080000000 to 00000000080000010"));
  await click(one, "full");
}

/** Columns of values have place enough. */
async function checkWidths(one, say) {
  await forget(one);
  await openExample(one, "scores");
  const cut = await one.ask(() => [...document.querySelectorAll(":is(#harts, #facts, #memory) :is(.bounds span, td.from, td.word)")]
    .filter((part) => part.scrollWidth > part.clientWidth).map((part) => part.textContent));
  const harts = await textOf(one, "harts");
  const narrow = [];
  for (const width of [980, 1024, 1130, 1240, 1280]) {
    await one.screen(width, 800);
    narrow.push(...await one.ask((width) => [...document.querySelectorAll("#harts thead th, #facts thead th")]
      .map((head) => [width, head.textContent, head.getBoundingClientRect().width]).filter(([, , wide]) => wide < 35), width));
  }
  say("each column is seen at 980 to 1,280 pixels", narrow.length === 0, narrow);
  say("no bound, value or origin is cut at 1,280 pixels", cut.length === 0 && harts.includes("1,794 MiB from 0x10000000"), cut);
  await openExample(one, "leak");
}

async function checkSource(one, say) {
  const [above, between] = ["# a line\n", "# more\n"].map((line) => line.repeat(60));
  const listing = `${HEAD}${above}again: \naddi c6, c6, 1 # counts\n${between}cjal c0, again\n`;
  await enter(one, "listing", listing);
  await enter(one, "order", "000");
  const events = await textOf(one, "events");
  say("events have labels and comments, and no @0", events.includes("again: addi c6, c6, 1 # counts")
    && events.includes("cjal c0, again") && !events.includes("@"), events.slice(0, 200));
  const words = await textOf(one, "words");
  say("so has what happened", words.includes("again: addi c6, c6, 1 # counts"), words);
  const isSeen = () => one.ask(() => {
    const line = Number(/line (\d+)/.exec(document.getElementById("listing-next").textContent)[1]);
    const area = document.getElementById("listing");
    const top = (line - 1) * parseFloat(getComputedStyle(area).lineHeight) - area.scrollTop;
    return top >= 0 && top < area.clientHeight;
  });
  await enter(one, "listing", ".hart 0x10000000 4 0x10000000 execute\naddi c6, c6, 1\necall\n");
  await enter(one, "order", "00");
  const trapped = await textOf(one, "words");
  say("a fetch that traps has a short address", trapped.includes("fetch at 0x10000004") && trapped.includes("trap Length"),
    trapped);
  await enter(one, "listing", listing);
  await enter(one, "order", "000");
  const seen = [];
  for (const id of ["first", "on", "on", "on", "back"]) {
    await click(one, id);
    seen.push(await isSeen());
  }
  say("the listing follows the next instruction", seen.every(Boolean), seen);
}

async function checkWords(one, say) {
  const faults = [["add c1, c2", "the end of the line", "a register", 10],
    ["addi c1, c2, 5000", "5000", "from -2048 to 2047", 13],
    ["addd c1, c2, c3", "addd", "an instruction", 0], ["cjal c0, nowhere", "nowhere", "name of a label", 9],
    ["lb c1, 4[c5]", "4[c5]", "an offset", 7], [".hart 0x10000000 16 0x10000000 load+run", "load+run", "permissions", 31],
    [".set c5 int 1", "c5", "not set yet", 5]];
  const wrong = [];
  for (const [line, found, expected, column] of faults) {
    await enter(one, "listing", `${HEAD}${line}\necall\n`);
    const words = await textOf(one, "listing-fault");
    const marked = await one.ask(() => document.querySelector("#listing-fault pre")?.textContent ?? "");
    const caret = marked.split("\n")[1]?.indexOf("^");
    const isSaid = words.includes(`Found ${found}`) && words.includes(expected);
    if (!isSaid || caret !== column || !marked.startsWith(line)) wrong.push([line, words, caret]);
  }
  say("faults say what was found and what was expected, with a caret", wrong.length === 0, wrong.slice(0, 2));
  const means = await textOf(one, "listing-fault");
  say("and what the kind of fault means", means.includes("6 Twice: the name is defined on an earlier line"), means);
}

/** Lines, and the kind of fault that each has while the others stay as they are; none of a good one. */
const MANY_FAULTS = [["again: x", "3 Operand"], ["addd c1, c2", "2 Word"], ["addi c1, c2, 5000", "4 Range"],
  ["cjal c0, again", null], ["cjal c0, nowhere", "5 Label"], [".hart 0x10000000 16 0x10000000 run", "3 Operand"],
  [".set c5 int 1", "6 Twice"], ["ecall", null]];

async function checkAllFaults(one, say) {
  await forget(one);
  const above = HEAD.split("\n").length;
  const lineOf = (index) => above + index;
  const wanted = MANY_FAULTS.map(([, kind], index) => kind && `${lineOf(index)}: ${kind}`).filter(Boolean);
  const text = HEAD + MANY_FAULTS.map(([line]) => line).join("\n");
  await enter(one, "listing", text);
  const marked = () => one.ask(() => [...document.querySelectorAll("#gutter .faulty")].map((row) => row.dataset.line).join());
  const numbers = wanted.map((words) => words.split(":")[0]).join();
  say("all faulty lines are marked at once", await marked() === numbers, await marked());
  const words = await textOf(one, "listing-fault");
  const missing = wanted.filter((line) => !words.includes(`listing line ${line}`));
  say("and told, each with its own fault", missing.length === 0 && words.includes("5 more faulty lines"), [missing, words]);
  say("with what was found and expected", words.includes("Found nowhere; expected the name of a label"), words);
  const underlined = await one.ask(() => document.querySelectorAll("#bars .at-column").length);
  say("what is meant is underlined in each", underlined === wanted.length, underlined);
  await one.ask(() => { document.querySelectorAll("#listing-fault li button")[1].focus(); });
  await one.press("Enter");
  const chosen = await one.ask(() => {
    const { value, selectionStart, selectionEnd } = document.getElementById("listing");
    return [document.activeElement.id, value.slice(selectionStart, selectionEnd)].join();
  });
  say("a button goes to another faulty line", chosen === `listing,${MANY_FAULTS[2][0]}`, chosen);
  await enter(one, "listing", text.replace("5000", "500"));
  say("a line that is mended is no longer marked", await marked() === numbers.replace(`${lineOf(2)},`, ""), await marked());
  await enter(one, "listing", `${HEAD}ecall\n`);
  say("nor is any of a good listing", await marked() === "" && await textOf(one, "listing-fault") === "", await marked());
  const [taken, count] = await one.ask((head) => {
    const text = `${head}${"nothing\n".repeat(2000)}`;
    const began = performance.now();
    const list = faulty.marked(runs.faultsOf(text), text);
    faulty.showListing(list, () => {});
    return [performance.now() - began, list.length];
  }, HEAD);
  say("many faulty lines are found within half a second", taken < 500 && count > 20, [taken, count]);
}

// ------------------------------------------------------------------- runs

const LOOP = `${HEAD}again:\naddi c6, c6, 1\ncjal c0, again\n`;

async function checkRuns(one, say) {
  await forget(one);
  await openExample(one, "lost_update");
  const run = async (mode, seed) => {
    await click(one, "first");
    await choose(one, "mode", mode);
    if (seed) await enter(one, "run-seed", String(seed));
    await click(one, "run");
    return valueOf(one, "order");
  };
  say("harts run in turn until all stop", await run("turns") === "01010101", await valueOf(one, "order"));
  await openExample(one, "lock");
  say("as bin/run_to_end does", await run("turns") === "01010101010101111111", await valueOf(one, "order"));
  await openExample(one, "lost_update");
  say("one hart runs alone", await run("1") === "1111", await valueOf(one, "order"));
  const [random, same, other] = [await run("random", 7), await run("random", 7), await run("random", 8)];
  say("harts run at random by a seed", random === same && random !== other && /^[01]{8}$/.test(random),
    [random, same, other]);
  await click(one, "run");
  say("where all have stopped that is said", (await textOf(one, "notice")).includes("no hart that can step"));
  await click(one, "undo");
  say("a run is undone", await valueOf(one, "order") === same, await valueOf(one, "order"));
  await enter(one, "listing", LOOP);
  await enter(one, "order", "");
  await choose(one, "mode", "turns");
  const taken = await one.ask(() => {
    const began = performance.now();
    document.getElementById("run").click();
    return performance.now() - began;
  });
  console.log(`playground: ${one.name}: Run to 100,000 steps: ${taken.toFixed(0)} ms`);
  say("what doesn't stop ends after 100,000 operations, in less than 3 s", taken < 3000
    && await textOf(one, "place") === "100000 of 100000" && (await textOf(one, "notice")).includes("100,000"),
    [taken, await textOf(one, "place")]);
}

async function checkPoints(one, say) {
  const body = "addi c6, c0, 3\nagain:\naddi c7, c7, 1\naddi c6, c6, -1\nbne c6, c0, again\necall\n";
  await enter(one, "listing", HEAD + body);
  await enter(one, "order", "");
  const toLine = (line) => one.ask((line) => {
    const area = document.getElementById("listing");
    const at = area.value.split("\n").slice(0, line - 1).join("\n").length + 1;
    area.focus();
    area.setSelectionRange(at, at);
  }, line);
  await toLine(6);
  await one.press("F9");
  await one.until(() => document.getElementById("points-words").textContent !== "");
  const set = await textOf(one, "points-words");
  say("F9 sets a breakpoint at the line", set === "Breakpoints: line 6.", set);
  const stops = [];
  for (let count = 0; count < 4; count += 1) {
    await click(one, "run");
    stops.push(await textOf(one, "place"));
  }
  say("Run stops at the breakpoint each time, and then at the end",
    stops.join() === "2 of 2,5 of 5,8 of 8,11 of 11", stops);
  await enter(one, "listing", `# a line more\n${await valueOf(one, "listing")}`);
  const moved = await textOf(one, "points-words");
  say("a breakpoint moves with its line", moved === "Breakpoints: line 7.", moved);
  await click(one, "points-clear");
  await click(one, "first");
  await toLine(8);
  await one.until(() => document.getElementById("run-here").textContent === "Run to line 8");
  await click(one, "run-here");
  say("a run to a line stops before it", (await textOf(one, "listing-next")).includes("hart 0: line 8")
    && await textOf(one, "place") === "3 of 3", await textOf(one, "place"));
  await openOver(one, "use_after_free", 1);
  await click(one, "first");
  await click(one, "next-cleared");
  const cleared = await textOf(one, "words");
  await click(one, "first");
  await click(one, "next-trap");
  const trap = await textOf(one, "words");
  say("the next trap and the next cleared tag are two buttons", cleared.includes("sweep") && trap.includes("trap Tag"),
    [cleared, trap]);
}

// ------------------------------------------------------------------- memory

async function checkMemory(one, say) {
  const bytes = "48656c6c6f2c20776f726c6400ff0102";
  await enter(one, "listing", `${HEAD}.bytes 0x80000000 ${bytes}\necall\n`);
  const shown = async (form, size) => {
    await choose(one, "memory-form", form);
    await choose(one, "memory-bytes", String(size));
    return textOf(one, "memory");
  };
  const wanted = [["bytes", 8, "48 65 6c 6c 6f 2c 20 77 6f 72 6c 64 00 ff 01 02Hello, world...."],
    ["hex", 4, "0x6c6c65480x77202c6f0x646c726f0x0201ff00"], ["decimal", 2, "2592827756"],
    ["hex", 8, "0x77202c6f6c6c65480x0201ff00646c726f"], ["hex", 1, "0x480x650x6c"]];
  for (const [form, size, text] of wanted) {
    const found = await shown(form, size);
    say(`memory as ${form} of ${size}`, found.includes(text), found);
  }
  await choose(one, "memory-form", "capabilities");
}

// ------------------------------------------------------------------- the diagram, help

async function checkTimes(one, say) {
  await forget(one);
  await openExample(one, "lost_update");
  await enter(one, "order", "00001111");
  const columns = await one.ask(() => [...document.querySelectorAll("#times tbody tr")]
    .map((row) => [...row.querySelectorAll("td")].findIndex((cell) => cell.firstElementChild)).join(""));
  say("the diagram has each step in its hart's column", columns === "00001111", columns);
  await one.ask(() => document.querySelector('#times button[data-index="3"]').focus());
  await one.press("ArrowDown", "Alt");
  await one.until(() => document.getElementById("order").value !== "00001111");
  say("Alt and Down moves a step", await valueOf(one, "order") === "00010111", await valueOf(one, "order"));
  say("and the step keeps the focus", await one.ask(() => document.activeElement.dataset.index) === "4");
  await click(one, "undo");
  const [from, to] = await one.ask(() => {
    document.getElementById("times").scrollIntoView({ block: "center" });
    return ["7", "0"].map((index) => {
      const box = document.querySelector(`#times button[data-index="${index}"]`).getBoundingClientRect();
      return [Math.round(box.left + 20), Math.round(box.top + box.height / 2)];
    });
  });
  await one.drag(from, to);
  say("a step is dragged to another moment", await valueOf(one, "order") === "10000111", await valueOf(one, "order"));
  await click(one, "undo");
  say("which is undone", await valueOf(one, "order") === "00001111", await valueOf(one, "order"));
  await one.ask(() => document.querySelector('#times button[data-index="3"]').click());
  await click(one, "later");
  await click(one, "later");
  const moved = await valueOf(one, "order");
  await click(one, "earlier");
  say("buttons move the marked step", moved === "00011011" && await valueOf(one, "order") === "00010111", moved);
}

async function checkHelp(one, say) {
  await enter(one, "listing", `${HEAD}csetbounds c6, c5, c7\necall\n`);
  await one.ask(() => {
    const area = document.getElementById("listing");
    area.focus();
    area.setSelectionRange(area.value.indexOf("csetbounds"), area.value.indexOf("csetbounds"));
  });
  say("the line of the cursor has its help", await one.until(() =>
    document.getElementById("help").textContent.includes("csetbounds cd, c1, c2")), await textOf(one, "help"));
  const missing = await one.ask(() => {
    const names = JSON.parse(document.getElementById("help-data").textContent).map(({ name }) => name);
    const place = document.createElement("div");
    return names.filter((name) => {
      help.show(place, [`${name} c1, c2, c3 # words`], 1);
      return !place.textContent.startsWith(name) || !place.textContent.includes("Traps:");
    });
  });
  say("each instruction has its help", missing.length === 0, missing);
  const pointed = (type) => one.ask((type) => {
    const area = document.getElementById("listing");
    const [line, top] = [area.value.split("\n").indexOf("ecall"), area.getBoundingClientRect().top];
    const clientY = top + (line + 0.9) * parseFloat(getComputedStyle(area).lineHeight);
    area.dispatchEvent(new PointerEvent(type, { clientY }));
    return document.getElementById("help").textContent;
  }, type);
  const [over, left] = [await pointed("pointermove"), await pointed("pointerleave")];
  say("the line that is pointed at has it, and then that of the cursor again", over.startsWith("ecall")
    && left.startsWith("csetbounds"), [over, left]);
}

module.exports = {
  parts: [checkPlaces, checkWidths, checkSource, checkWords, checkAllFaults, checkRuns, checkPoints, checkMemory, checkTimes, checkHelp],
};
