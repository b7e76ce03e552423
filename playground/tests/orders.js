/** What a person asks of every order: ends, states, properties, limits, stopping; in either browser. */
"use strict";
const fs = require("node:fs");
const path = require("node:path");
const { HEAD, click, enter, forget, linkOf, openExample, openOver, textOf, valueOf } = require("./hands.js");

const EXAMPLES = path.resolve(__dirname, "../../examples");
/** How long the ends of a listing may take, and a search of 100,000 states; machines are busy: the best of some. */
const MOST_MS = 300;
const MOST_SEARCH_MS = 3000;
const MOST_TRIES = 5;

/** A hart that counts without end, and looks at the count: each is a state. */
const COUNTING = `${HEAD}again:\nlb c7, 0(c5)\naddi c6, c6, 1\nbne c6, c0, again\necall\n`;

const submit = (one, form) => one.ask((form) => document.querySelector(`#${form} button`).click(), form);
const doingOf = (one) => textOf(one, "every-doing");

/** Asks a question, and waits for its answer. Gives what is shown of it. */
async function asked(one, form) {
  await submit(one, form);
  await one.until(() => document.getElementById("every-stop").disabled);
  return textOf(one, "every-answer");
}

/** How long a question takes in the page at best, until it takes no longer than this. */
async function bestOf(one, name, most) {
  let taken = Infinity;
  for (let count = 0; count < MOST_TRIES && taken > most; count += 1) {
    taken = Math.min(taken, await one.ask(async (name) => {
      const began = performance.now();
      await every.ask(name);
      return performance.now() - began;
    }, name));
  }
  return taken;
}

/** The rows of the answer's table: of each its cells. */
const rowsOf = (one) => one.ask(() => [...document.querySelectorAll("#every-answer tbody tr")]
  .map((row) => [...row.children].map((cell) => cell.textContent)));

const openRow = (one, number) => one.ask((number) => {
  document.querySelectorAll("#every-answer tbody [data-order]")[number].click();
}, number);

async function checkEnds(one, say) {
  await forget(one);
  await openExample(one, "lost_update");
  const words = await asked(one, "every-outcomes");
  const rows = await rowsOf(one);
  say("all ends of lost_update are found", words.includes("All 13 states") && words.includes("Every run ends.")
    && rows.length === 3, words);
  say("each with what differs, and its order", rows[1]?.join("|") === "1|all halted|1|1|1|00110011|Open this order", rows);
  await openRow(one, 1);
  const place = await textOf(one, "place");
  say("an end's order is opened at its end", await valueOf(one, "order") === "00110011" && place === "8 of 8", place);
  await click(one, "undo");
  say("which is undone", await valueOf(one, "order") !== "00110011", await valueOf(one, "order"));
  await enter(one, "every-items", "mem8[0x80000000], 0.status");
  await asked(one, "every-outcomes");
  const shown = await rowsOf(one);
  say("items have their values", shown.length === 2 && shown[0].join("|") === "0|0x2|halted|00001111|Open this order", shown);
  await enter(one, "every-items", "0.c6,nothing");
  const fault = await asked(one, "every-outcomes");
  const marked = await one.ask(() => document.querySelector("#every-answer mark")?.textContent);
  say("an item that is none is marked", fault.includes("bad place at byte 5") && marked === "nothing", [fault, marked]);
  await openOver(one, "spin_lock");
  await enter(one, "every-items", "mem8[0x80000010]");
  const counted = await asked(one, "every-outcomes");
  const kept = await rowsOf(one);
  say("tries that are counted, and never looked at, make no states", counted.includes("All 16 states")
    && kept.join() === "0,0x2,0100000001111111,Open this order", [counted, kept]);
  await enter(one, "every-items", "");
}

async function checkFound(one, say) {
  await openOver(one, "broken_lock");
  const labels = await one.ask(() => [...document.querySelectorAll("#every-labels button")].map((one) => one.textContent));
  say("the labels of the listing are offered", labels.join() === "acquire,enter,leave", labels);
  await enter(one, "every-condition", "");
  const offered = () => one.ask(() => [...document.querySelectorAll("#every-conditions option")].map(({ value }) => value));
  say("so are whole conditions", (await offered()).includes("two harts in enter..leave"), await offered());
  await enter(one, "every-condition", "two harts in ent");
  say("so is a label for the word that is typed", (await offered()).includes("two harts in enter"), await offered());
  await enter(one, "every-condition", "two harts in enter..");
  await one.ask(() => { document.querySelectorAll("#every-labels button")[2].click(); });
  const put = await valueOf(one, "every-condition");
  say("a label's button puts it into the condition", put === "two harts in enter..leave", put);
  const words = await asked(one, "every-find");
  say("a state is found", words.startsWith("Found: it holds after 0011 "), words);
  await one.ask(() => { document.querySelector("#every-answer [data-order]").click(); });
  say("its order is opened", await valueOf(one, "order") === "0011", await valueOf(one, "order"));
  await openOver(one, "lock");
  say("another text makes an answer old", (await textOf(one, "every-stale")).includes("ask again")
    && await one.ask(() => document.querySelector("#every-answer [data-order]").disabled));
  const none = await asked(one, "every-find");
  say("that there is none is said", none.startsWith("None in 9 states")
    && none.includes("registers which nobody reads again count as one")
    && none.includes("the equal harts 0 and 1 have changed places")
    && await textOf(one, "every-stale") === "", none);
  await enter(one, "every-condition", "two harts in enter..nowhere");
  const fault = await asked(one, "every-find");
  const marked = await one.ask(() => document.querySelector("#every-answer mark")?.textContent);
  say("a condition's fault is marked, with what conditions are", fault.includes("bad condition at byte 13")
    && marked === "enter..nowhere" && fault.includes("0 is trapped"), [fault, marked]);
}

async function checkProperties(one, say) {
  await openOver(one, "broken_lock");
  const words = await asked(one, "every-check");
  const rows = await rowsOf(one);
  say("each property has its answer", rows.map(([line, answer]) => `${line} ${answer.slice(2)}`).join()
    === "26 violated,27 holds,28 violated,29 holds" && words.includes("50 states"), rows);
  await openRow(one, 2);
  say("the order that violates one is opened", await valueOf(one, "order") === "0011000111000111",
    await valueOf(one, "order"));
  await one.ask(() => { document.querySelector("#every-answer [data-line]").click(); });
  const chosen = await one.ask(() => getSelection().toString() || document.getElementById("listing").value.slice(
    document.getElementById("listing").selectionStart, document.getElementById("listing").selectionEnd));
  say("its line is gone to", chosen === "#! never two harts in enter..leave", chosen);
  await openOver(one, "revocation");
  await asked(one, "every-check");
  const [swept] = (await rowsOf(one)).filter((row) => row.join().includes("["));
  say("a listing's own sweeps are let in", Boolean(swept), await rowsOf(one));
  await one.ask(() => [...document.querySelectorAll("#every-answer [data-order]")]
    .find((button) => button.dataset.order.includes("[")).click());
  say("and an order with them is opened", (await valueOf(one, "order")).startsWith("order 2\n")
    && await textOf(one, "order-fault") === "", await valueOf(one, "order"));
  await enter(one, "listing", `${HEAD}ecall\n`);
  const none = await asked(one, "every-check");
  say("that there is no property is said, and how one is written", none.includes("no property")
    && none.includes("#! never"), none);
  await enter(one, "listing", `${HEAD}ecall\n#! never 0 at nowhere\n`);
  const fault = await asked(one, "every-check");
  say("a faulty property is told with its line", fault.includes("bad property at line 4") && fault.includes("Go to line 4"),
    fault);
  await enter(one, "listing", `${HEAD}nothing\n`);
  await submit(one, "every-check");
  say("of a faulty listing nothing is searched", (await textOf(one, "notice")).includes("listing is faulty"),
    await textOf(one, "notice"));
}

async function checkEndless(one, say) {
  await enter(one, "listing", `${HEAD}again:\ncjal c0, again\n`);
  const words = await asked(one, "every-outcomes");
  say("that a run can go on for ever is said, with such a run", words.includes("can go on for ever"), words);
  await one.ask(() => { document.querySelector("#every-answer [data-order]").click(); });
  say("which is opened with its loop once", await valueOf(one, "order") === "0", await valueOf(one, "order"));
}

/** Of assembly the listing is searched that it means, by the names of its functions. */
async function checkAssembled(one, say) {
  await openOver(one, "scores");
  const labels = await one.ask(() => [...document.querySelectorAll("#every-labels button")].map((one) => one.textContent));
  say("the functions of assembly are offered as labels", labels.some((label) => /^main = @\d+$/.test(label)), labels);
  await enter(one, "every-condition", "0 is trapped:Length");
  const words = await asked(one, "every-find");
  say("a state of assembly is found", words.startsWith("Found: "), words);
  await one.ask(() => { document.querySelector("#every-answer [data-order]").click(); });
  const why = await textOf(one, "words");
  say("and its order opened, at the line of the assembly", why.includes("trap Length") && why.includes("line 25"), why);
  const none = await asked(one, "every-check");
  say("that assembly has no properties is said", none.includes("lines of a listing"), none);
}

/** Orders that are drawn by chance, with the counts of an independent model: ends, traps, runs that hang, and that are cut. */
async function checkDrawn(one, say) {
  await openOver(one, "lost_update");
  const words = await asked(one, "every-sample");
  const rows = await rowsOf(one);
  say("orders drawn by chance are run, and counted by their ends", words.startsWith("1,000 runs")
    && words.includes("the longest took 8 operations") && rows.map(([, runs]) => runs).join() === "122,743,135", [words, rows]);
  await openRow(one, 1);
  say("the order of the first run of an end is opened", await valueOf(one, "order") === "11010100", await valueOf(one, "order"));
  await openOver(one, "overflow");
  await asked(one, "every-sample");
  const trapped = (await rowsOf(one)).at(-1);
  say("a trap of runs has its cause, and how many have it", trapped.slice(0, 3).join("|") === "hart 0|Length (cause 8)|1,000",
    trapped);
  await openOver(one, "missed_wakeup");
  const hung = await asked(one, "every-sample");
  const ended = (await rowsOf(one)).map(([, runs]) => runs).join();
  say("runs that hang are told from ends", hung.includes("277 runs hung") && ended === "448,275", [hung, ended]);
  await enter(one, "listing", COUNTING);
  const cut = await asked(one, "every-sample");
  say("so are runs that had not ended", cut.includes("1,000 runs had not ended after 1,000 operations"), cut);
  await enter(one, "every-runs", "0");
  await submit(one, "every-sample");
  say("no runs are not asked for", await textOf(one, "every-answer") === cut, await textOf(one, "every-answer"));
  await enter(one, "every-runs", "1000");
}

/** Waits until a link's question has its answer, and gives it. */
async function answerOf(one, fragment) {
  await one.open(fragment);
  await one.until(() => document.getElementById("every-answer").childElementCount > 0);
  return textOf(one, "every-answer");
}

/** A search has so much memory: what needs more says so, and the next one is answered. */
async function checkMemory(one, say) {
  await enter(one, "listing", COUNTING);
  await enter(one, "every-memory", "128");
  await enter(one, "every-limit", "20000000");
  await enter(one, "every-condition", "0.c7 = 1");
  const out = await asked(one, "every-find");
  say("a search ends where its memory does", out.startsWith("memory") && out.includes("Memory ran out"), out);
  await enter(one, "every-limit", "1000");
  const next = await asked(one, "every-find");
  say("and the next one is answered", next.startsWith("Unknown after 1,000 states"), next);
  await enter(one, "every-memory", "512");
  await enter(one, "every-limit", "100000");
}

/** A link may ask a question of what it opens. */
async function checkLinked(one, say) {
  await openOver(one, "broken_lock");
  const link = await linkOf(one);
  const fragment = link.slice(link.indexOf("#"));
  const words = await answerOf(one, `${fragment}&ask=${encodeURIComponent("find:two harts in enter..leave")}`);
  const condition = await valueOf(one, "every-condition");
  say("a link asks a question about every order", words.startsWith("Found: it holds after 0011 ")
    && condition === "two harts in enter..leave", [words, condition]);
  const drawn = await answerOf(one, `${fragment}&ask=${encodeURIComponent("sample:orders=30,seed=7,depth=3")}`);
  const numbers = await Promise.all(["runs", "seed", "length", "depth"].map((name) => valueOf(one, `every-${name}`)));
  say("a link asks about orders drawn by chance", drawn.startsWith("30 runs ") && numbers.join() === "30,7,1000,3",
    [drawn, numbers]);
  for (const [words, asks] of [["what is no question", "nothing"], ["what the form can't take", "sample:depth=4"]]) {
    await one.open(`${fragment}&ask=${encodeURIComponent(asks)}`);
    say(`a link that asks ${words} opens its listing`, (await textOf(one, "every-answer")) === ""
      && await textOf(one, "notice") === "" && await valueOf(one, "work-name") === "broken_lock", await textOf(one, "notice"));
  }
}

async function checkLimits(one, say) {
  await enter(one, "listing", COUNTING);
  await enter(one, "every-limit", "1000");
  await enter(one, "every-condition", "0.c7 = 1");
  const cut = await asked(one, "every-find");
  say("a search that is cut says so", cut.startsWith("Unknown after 1,000 states"), cut);
  const ends = await asked(one, "every-outcomes");
  say("so do ends that need not be all", ends.startsWith("Unknown after 1,000 states") && ends.includes("more ends"), ends);
  await enter(one, "every-limit", "100000");
  const taken = await bestOf(one, "find", MOST_SEARCH_MS);
  const most = await textOf(one, "every-answer");
  console.log(`playground: ${one.name}: 100,000 states searched: ${taken.toFixed(0)} ms`);
  say(`100,000 states are searched within ${MOST_SEARCH_MS} ms`, taken < MOST_SEARCH_MS
    && most.startsWith("Unknown after 100,000 states"), [taken, most]);
  await enter(one, "every-limit", "20000000");
  await submit(one, "every-find");
  const doing = await doingOf(one);
  say("what is being searched is said", doing.includes("a state in which 0.c7 = 1, up to 20,000,000 states"), doing);
  await click(one, "last");
  await enter(one, "order", "00");
  say("the page stays alive meanwhile", await textOf(one, "place") === "2 of 2"
    && !await one.ask(() => document.getElementById("every-stop").disabled), await textOf(one, "place"));
  await click(one, "every-stop");
  await one.until(() => document.getElementById("every-stop").disabled);
  say("a search is stopped", (await doingOf(one)).startsWith("Stopped after"), await doingOf(one));
  await enter(one, "every-limit", "100000");
  await submit(one, "every-find");
  await enter(one, "listing", `${HEAD}ecall\n`);
  const after = await asked(one, "every-outcomes");
  say("a question in place of another is answered", after.includes("1 end,") && after.includes("Every run ends"), after);
}

/** The ends of each listing that has a `.outcomes` file: as many as there, and how long they take. */
async function checkOutcomes(one, say) {
  const names = fs.readdirSync(EXAMPLES).filter((name) => /^\w+\.outcomes$/.test(name)).map((name) => name.split(".")[0]);
  await forget(one);
  const wrong = [];
  for (const name of names) {
    const told = fs.readFileSync(`${EXAMPLES}/${name}.outcomes`, "utf8");
    const orders = [...told.matchAll(/^outcome \d+ order=(.*)$/gm)].map(([, order]) => order);
    await openOver(one, name);
    const taken = await bestOf(one, "outcomes", MOST_MS);
    const found = await one.ask(() => [...document.querySelectorAll("#every-answer tbody [data-order]")]
      .map((button) => button.dataset.order));
    console.log(`playground: ${one.name}: outcomes of ${name}: ${taken.toFixed(0)} ms`);
    if (taken > MOST_MS || found.join() !== orders.join()) wrong.push([name, taken, found]);
  }
  say(`the ends of ${names.length} listings are those of their files, each within ${MOST_MS} ms`,
    wrong.length === 0 && names.length > 3, wrong);
}

module.exports = { parts: [checkEnds, checkFound, checkProperties, checkEndless, checkAssembled, checkDrawn, checkMemory, checkLinked, checkLimits, checkOutcomes] };
