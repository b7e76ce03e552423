/**
 * chromium.js PAGE ANSWERS [PICTURES]: the playground in Chromium, from disk and with the network off: the cases, a
 * person's path by keyboard, faults at their lines, broken fragments, roles and names, contrast and widths, and that
 * nothing leaves the page. Pictures are put into the folder PICTURES. Prints what failed, and last
 * 'N passed, M failed'.
 */
"use strict";
const fs = require("node:fs");
const path = require("node:path");
const { withBrowser } = require("../../page/browser.js");
const { check, checkFocus, checkQuiet, checkScreens, checkTree, end } = require("../../page/checks.js");
const { isReady, positionTimes } = require("./asked.js");
const { checkAssemblyDownloads, checkAssemblyTree, openAssembly } = require("./assembled.js");
const { busyListing, checkAssembled, checkCases, readLines, readPage, same } = require("./common.js");
const { checkDownloaded } = require("./downloads.js");
const { inChromium, until } = require("./drivers.js");
const { checkPerson } = require("./person.js");

const [page, answers, pictures] = process.argv.slice(2);
const url = `file://${path.resolve(page)}`;
const cases = readLines(answers);
const { gallery } = readPage(page);
const LAST = 4_294_967_295;
const MOST_LOADING = 500;
const CONTROL = 2;
const ALT = 1;

async function open(tab, fragment = "") {
  await tab.send("Page.navigate", { url: "about:blank" });
  await tab.go(url + fragment);
  return until(tab, isReady);
}

const focus = (tab, id) => tab.ask((id) => document.getElementById(id).focus(), id);

async function pressOn(tab, id, key) {
  await focus(tab, id);
  await tab.press(key);
}

/** Puts a text in place of what a field has, as a person would who marks all and types. */
async function type(tab, id, text) {
  await focus(tab, id);
  await tab.ask((id) => document.getElementById(id).select(), id);
  if (text) await tab.send("Input.insertText", { text });
  else await tab.press("Delete");
}

/** What a person sees. */
const seen = (tab) => tab.ask(() => {
  const textOf = (id) => document.getElementById(id).textContent;
  return {
    listing: document.getElementById("listing").value,
    order: document.getElementById("order").value,
    place: textOf("place"),
    words: textOf("words"),
    fault: textOf("listing-fault"),
    orderFault: textOf("order-fault"),
    stale: textOf("stale"),
    next: textOf("listing-next"),
    isDimmed: document.getElementById("machine").classList.contains("dimmed"),
    faulty: document.querySelector("#gutter .faulty")?.lastChild.textContent,
    steps: [...document.querySelectorAll("#steps button")].map((one) => !one.disabled),
    statuses: [...document.querySelectorAll("h3 .status")].map((one) => one.textContent),
    harts: document.getElementById("harts").innerText,
    notice: textOf("notice"),
  };
});

// --------------------------------------------------------------- a person's path

async function checkPath(tab, newTab) {
  await open(tab);
  const first = await seen(tab);
  check("the page opens at its first example", first.listing === gallery[0].text, first.listing.slice(0, 80));
  check("and shows its run", /^Event \d+/.test(first.words), first.words);

  // another example of the gallery, by its list and its button
  await focus(tab, "example");
  await tab.press("l");
  const chosen = await tab.ask(() => document.getElementById("example").value);
  const example = gallery.find(({ name }) => name === chosen);
  await tab.press("Tab");
  await tab.press("Enter");
  const opened = await seen(tab);
  check("an example is opened by keys", example.name.startsWith("l") && opened.listing === example.text
    && opened.order === example.orders[0].text, chosen);

  // an edit to a faulty line, and back
  await type(tab, "listing", opened.listing.replace(/^ecall/m, "ecal"));
  const line = opened.listing.split("\n").indexOf("ecall") + 1;
  const faulty = await seen(tab);
  check("a fault is marked at its line", faulty.faulty === String(line)
    && faulty.fault.startsWith(`listing line ${line}: 2 Word`), faulty);
  check("the machine of the last good listing stays, dimmed", faulty.isDimmed
    && faulty.stale === "of the last good listing" && faulty.harts === opened.harts, faulty.stale);
  await type(tab, "listing", opened.listing);
  const mended = await seen(tab);
  check("and the mended listing is shown again", mended.fault === "" && !mended.isDimmed && mended.stale === ""
    && mended.harts === opened.harts, mended.fault);

  // three harts stepped by their keys, by a button, and taken back
  const threeHarts = gallery.find(({ name }) => name === "leak");
  await type(tab, "listing", threeHarts.text);
  await type(tab, "order", "");
  check("an empty order is position 0", (await seen(tab)).place === "0 of 0");
  for (const hart of ["0", "1", "2"]) await tab.press(hart, ALT);
  const stepped = await seen(tab);
  check("Alt with a digit steps a hart", stepped.order === "012" && stepped.place === "3 of 3", stepped.order);
  await tab.ask(() => document.querySelector("#steps button[data-hart='0']").focus());
  await tab.press("Enter");
  const pressed = await seen(tab);
  check("so does its button, and it is disabled where the hart has stopped",
    pressed.order === "0120" && same(pressed.steps, [false, true, true]), [pressed.order, pressed.steps]);
  check("each hart's next instruction has its line", /hart 1: line \d+, hart 2: line \d+/.test(pressed.next), pressed.next);
  await pressOn(tab, "undo", "Enter");
  check("undo takes the last step back", (await seen(tab)).order === "012");

  // back in the run, a step from there cuts the order
  await pressOn(tab, "slider", "Home");
  check("Home on the slider", (await seen(tab)).place === "0 of 3");
  await tab.press("ArrowRight");
  check("an arrow key on the slider", (await seen(tab)).place === "1 of 3");
  await tab.press("2", ALT);
  const cut = await seen(tab);
  check("a step cuts the order after the operations done", cut.order === "02" && cut.place === "2 of 2", cut.order);
  await pressOn(tab, "sweep-low", "Enter");
  const swept = await seen(tab);
  check("a sweep brings the header with it", swept.order === "order 2\n02[0x80000000,0x80001000]"
    && swept.words.includes("sweep"), swept.order);
  await pressOn(tab, "undo", "Enter");

  // a race: the same seed, the same order; nothing refused in it
  await type(tab, "order", "");
  await type(tab, "race-seed", "7");
  await type(tab, "race-count", "40");
  await tab.press("Enter");
  const raced = await seen(tab);
  check("a race draws an order", /^[012]{5,40}$/.test(raced.order) && raced.orderFault === "", raced.order);
  await type(tab, "order", "");
  await type(tab, "race-count", "40");
  await tab.press("Enter");
  check("the same seed draws the same order", (await seen(tab)).order === raced.order);
  await tab.press("Enter", CONTROL);
  check("Ctrl and Enter runs", (await seen(tab)).place === `${raced.order.length} of ${raced.order.length}`);

  // the tools
  await pressOn(tab, "bounds-base", "Enter");
  await pressOn(tab, "decode-word", "Enter");
  const lines = await tab.ask(() => ["bounds-line", "decode-line"].map((id) => document.getElementById(id).textContent));
  check("bounds and decode answer a line", lines[0].startsWith("ie=") && lines[1].startsWith("perms="), lines);

  // the list of events
  await tab.ask(() => document.querySelector("#events button").focus());
  await tab.press("ArrowDown");
  const listed = await seen(tab);
  check("arrow keys in the list of events", listed.words.startsWith("Event ")
    && listed.place === `${Number(/\d+/.exec(listed.words)[0]) + 1} of ${raced.order.length}`, listed.place);

  await checkShare(tab, newTab);
  await checkDownloads(tab);
  await tab.send("Page.reload");
  await until(tab, isReady);
  const reloaded = await seen(tab);
  check("a reload keeps both texts", reloaded.listing === threeHarts.text && reloaded.order === raced.order,
    reloaded.order);
}

/** The link, opened in a new tab, gives the same page. */
async function checkShare(tab, newTab) {
  await pressOn(tab, "last", "Enter");
  await pressOn(tab, "share", "Enter");
  await until(tab, () => document.getElementById("share-link").value !== "");
  const link = await tab.ask(() => document.getElementById("share-link").value);
  check("a link is made", link.startsWith(`${url}#1.`), link.slice(0, 60));
  const mine = await seen(tab);
  const other = await newTab();
  await open(other, link.slice(url.length));
  const theirs = await seen(other);
  check("the link opens the same page", same({ ...mine, notice: "" }, { ...theirs, notice: "" }),
    Object.keys(mine).filter((key) => !same(mine[key], theirs[key])));
  checkQuiet(other, "the linked page");
  // a link that would be too long
  await other.ask(() => { document.getElementById("share-link").value = ""; });
  const noise = Array.from({ length: 60_000 }, () => Math.floor(Math.random() * 8)).join("");
  await type(other, "order", noise);
  await pressOn(other, "share", "Enter");
  await until(other, () => document.getElementById("share-words").textContent.includes("too long"));
  const words = await other.ask(() => document.getElementById("share-words").textContent);
  check("a link that is too long is not made", words.includes("too long"), words);
}

/** What is downloaded has the bytes of the programs. */
async function checkDownloads(tab) {
  const wanted = await tab.ask(() => {
    const [listing, order] = ["listing", "order"].map((id) => document.getElementById(id).value);
    return {
      "listing.lst": listing, "order.txt": order, "report.txt": machine.run(listing, order).text,
      "report.json": machine.json(listing, order).text,
      "explanation.txt": machine.explain(listing, order, 0, 4_294_967_295).text,
    };
  });
  await checkDownloaded(tab, wanted);
}

// ---------------------------------------------------------- faults, fragments, markup

/** The page with all that it may say at once: two faulty lines, a fault of the order, a notice, a breakpoint, what changed before. */
async function openFaulty(tab) {
  await open(tab, "#1.AAAA");
  await tab.ask((text) => {
    const field = (id) => document.getElementById(id);
    const enter = (id, text) => {
      field(id).value = text;
      field(id).dispatchEvent(new InputEvent("input"));
    };
    enter("listing", text);
    enter("order", "00 11 22x");
    field("point").click();
    field("full").click();
    enter("listing", `${text}add c1, c2\nnothing\n`);
    field("race").querySelector("button").click();
    for (const details of document.querySelectorAll("details")) details.open = true;
  }, gallery.find(({ name }) => name === "leak").text);
}

/** The page with an answer about every order of an example, or about orders drawn by chance. */
async function openAnswered(tab, question = "check", example = "broken_lock") {
  await open(tab);
  await tab.ask(async (text, question) => {
    const field = document.getElementById("listing");
    field.value = text;
    field.dispatchEvent(new InputEvent("input"));
    await every.ask(question);
    document.getElementById("every").scrollIntoView();
  }, gallery.find(({ name }) => name === example).text, question);
}

/** Each kind of fault of a listing, marked at its line. */
async function checkFaults(tab) {
  await open(tab);
  const head = ".hart 0x10000000 4 0x10000000 execute\n";
  const faults = {
    "1 NotAscii": `${head}ecall # \u00e9\n`, "2 Word": `${head}nothing\necall\n`,
    "3 Operand": `${head}add c1, c2\necall\n`, "4 Range": `${head}addi c1, c2, 5000\necall\n`,
    "5 Label": `${head}cjal c0, nowhere\necall\n`, "6 Twice": `${head}a:\na:\necall\n`,
    "7 Capability": `${head}.set c1 cap 0x80000001 4099 0x80000001 all\necall\n`,
    "8 NoHart": `.set c1 int 5\n${head}ecall\n`, "9 Size": `.ram 17\n${head}ecall\n`,
  };
  const wrong = [];
  for (const [kind, text] of Object.entries(faults)) {
    await type(tab, "listing", text);
    const { fault, faulty } = await seen(tab);
    const [, line, found] = /^listing line (\d+): (\d+ [A-Za-z]+) /.exec(fault) ?? [];
    if (found !== kind || faulty !== line || line === "0") wrong.push([kind, fault, faulty]);
  }
  check(`each of ${Object.keys(faults).length} kinds of faults is marked at its line`, wrong.length === 0, wrong);
  await type(tab, "listing", `${head}ecall\n`);
  await type(tab, "order", "0 x");
  const { orderFault } = await seen(tab);
  const marked = await tab.ask(() => document.querySelector("#order-fault mark")?.textContent);
  check("a fault of the order marks its byte", orderFault.startsWith("order byte 2: 1 Byte") && marked === "x",
    [orderFault, marked]);
  await type(tab, "order", "00");
  const step = await tab.ask(() => [document.getElementById("order-fault").textContent,
    document.getElementById("place").textContent]);
  check("a refused step is told, and what ran before it shown", step[0].startsWith("order step 1: 3 HartStopped")
    && step[1] === "1 of 1", step);
}

/** No text of a listing becomes markup. */
async function checkMarkup(tab) {
  const evil = "<img src=x onerror=document.title='taken'><script>document.title='taken'</script>";
  await type(tab, "listing", `# ${evil}\n.hart 0x10000000 4 0x10000000 execute\necall # ${evil}\n${evil}\n`);
  await type(tab, "order", evil);
  const found = await tab.ask(() => [document.title, document.querySelectorAll("img").length,
    document.querySelectorAll("main script").length]);
  check("no text becomes markup", found[0] !== "taken" && found[1] === 0 && found[2] === 0, found);
}

/** A fragment cut at each byte, and with each byte changed, breaks nothing. */
async function checkFragments(tab) {
  await open(tab);
  const wrong = await tab.ask(async () => {
    const [listing, order] = [".hart 0x10000000 4 0x10000000 execute\necall\n", "0"];
    const whole = await share.fragmentOf(listing, order);
    const wrong = [];
    const back = await share.read(whole);
    if (back?.listing !== listing || back?.order !== order) wrong.push("whole");
    for (let at = 0; at < whole.length; at += 1) {
      for (const text of [whole.slice(0, at), `${whole.slice(0, at)}*${whole.slice(at + 1)}`,
        `${whole.slice(0, at)}A${whole.slice(at + 1)}`]) {
        const read = await share.read(text).catch((fault) => wrong.push([text, String(fault)]));
        if (read && (typeof read.listing !== "string" || typeof read.order !== "string")) wrong.push(text);
      }
    }
    return wrong;
  });
  check("a fragment cut or changed at each byte breaks nothing", wrong.length === 0, wrong.slice(0, 3));
  for (const fragment of ["#1.", "#1.AAAA", "#2.abc", "#1.%00", "#nothing"]) {
    await open(tab, fragment);
    const { listing, notice } = await seen(tab);
    check(`${fragment} leaves the page at its first example, and says so`,
      listing === gallery[0].text && notice.includes("can't be read"), notice);
  }
}

// ------------------------------------------------------------------------- speed

/** How long it takes until the page is there and its first run is shown, and to answer a key. */
async function checkSpeed(tab) {
  let loaded = Infinity;
  // machines are busy: the best of some
  for (let count = 0; count < 10 && loaded > MOST_LOADING; count += 1) {
    await tab.send("Page.navigate", { url: "about:blank" });
    const began = performance.now();
    await tab.go(url);
    await until(tab, isReady);
    loaded = Math.min(loaded, performance.now() - began);
  }
  const { key, large, run } = await tab.ask(() => {
    const field = document.getElementById("listing");
    const timed = (text) => {
      const began = performance.now();
      field.value = text;
      field.dispatchEvent(new Event("input"));
      return performance.now() - began;
    };
    const small = field.value;
    const keys = Array.from({ length: 9 }, (_, n) => timed(`${small}${"#".repeat(n)}`)).sort((a, b) => a - b);
    const many = `.hart 0x10000000 4 0x10000000 execute\n${"#".repeat(1_048_530)}\necall\n`;
    const began = performance.now();
    machine.check(many);
    const large = performance.now() - began;
    const busy = [".hart 0x10000000 8 0x10000000 execute", "again:", "addi c9, c9, 1", "cjal c0, again", ""].join("\n");
    const start = performance.now();
    machine.run(busy, "0".repeat(100_000));
    return { key: keys[0], large, run: performance.now() - start };
  });
  const [position, drawn] = await tab.ask(positionTimes, busyListing(), "01234567".repeat(625));
  console.log(`playground: Chromium: a position among 5,000 events, drawn and laid out: ${drawn.toFixed(1)} ms`);
  const figures = { "the page is there": [loaded, MOST_LOADING], "a key in a small listing": [key, 50],
    "a check of 1 MiB": [large, 200], "a report of 100,000 steps": [run, 500],
    "the call for a position among 5,000 events": [position, 50] };
  for (const [name, [taken, most]] of Object.entries(figures)) {
    console.log(`playground: Chromium: ${name}: ${taken.toFixed(1)} ms`);
    check(`${name} in less than ${most} ms`, taken < most, taken);
  }
}

/** Two tabs with one piece of work: what is typed in both is kept, in two pieces. */
async function checkTabs(newTab) {
  const [one, other] = [await newTab(), await newTab()];
  await open(one);
  await type(one, "order", "0");
  await open(other);
  await type(one, "order", "01");
  await until(other, () => document.getElementById("work-state").textContent === "not changed");
  await type(other, "order", "1");
  const kept = await other.ask(() => store.all().map(({ order }) => order).sort());
  check("what is typed in two tabs is kept in two pieces", same(kept, ["01", "1"]), kept);
  await other.ask(() => localStorage.clear());
  for (const tab of [one, other]) await tab.send("Page.close");
}

/** The documents beside the page: each link of the lesson opens a good listing, and both are made for every reader. */
async function checkDocuments(tab) {
  const document = (name) => path.join(path.dirname(path.resolve(__filename)), "../../docs", name);
  const text = fs.readFileSync(document("lesson.html"), "utf8");
  const links = [...text.matchAll(/href="playground\.html(#[^"]*)"/g)].map(([, link]) => link.replaceAll("&amp;", "&"));
  await open(tab);
  const wrong = await tab.ask(async (links) => {
    const read = await Promise.all(links.map(async (link) => [link, await share.read(link)]));
    return read.filter(([link, found]) => {
      if (!found) return !tools.isAsked(link);
      const end = runs.endOf(found.isAssembly ? machine.assemble(found.listing).text : found.listing, found.order);
      return !end.isRun || !(end.at >= (found.at ?? 0)) || found.name === "" || (found.ask && !every.canAsk(found.ask));
    }).map(([link]) => link.slice(0, 60));
  }, links);
  check(`each of ${links.length} links of the lesson opens a listing that runs to its position`, wrong.length === 0
    && links.length > 40, wrong);
  const leak = links.find((link) => link.endsWith("&at=6&name=leak"));
  await open(tab, leak);
  const { words } = await seen(tab);
  check("a link of the lesson opens at the event that its command shows",
    words.includes("Clears c6: c5 has no load_cap"), words);
  for (const name of ["lesson.html", "instructions.html"]) {
    await checkScreens(tab, name, () => tab.go(`file://${document(name)}`), pictures);
  }
}

/** Where a browser lacks WebAssembly, a banner says so. */
async function checkBanner(tab) {
  await tab.send("Page.addScriptToEvaluateOnNewDocument", { source: "delete globalThis.WebAssembly" });
  await tab.send("Page.navigate", { url: "about:blank" });
  await tab.go(url);
  await until(tab, () => document.getElementById("banner")?.hidden === false);
  const banner = await tab.ask(() => [document.getElementById("banner").hidden,
    document.getElementById("banner").textContent, document.getElementById("banner").getAttribute("role")]);
  check("a banner says what is missing", !banner[0] && banner[1].includes("WebAssembly") && banner[2] === "alert",
    banner);
}

withBrowser(async (newTab) => {
  const tab = await newTab();
  await tab.send("Network.emulateNetworkConditions",
    { offline: true, latency: 0, downloadThroughput: -1, uploadThroughput: -1 });
  await tab.screen(1280, 900, false);
  await open(tab);
  await checkTree(tab, "the playground");
  await checkFocus(tab, "the playground", ["slider", "listing", "order", "example", "BUTTON"]);
  await checkPath(tab, newTab);
  await checkFaults(tab);
  await checkMarkup(tab);
  await checkFragments(tab);
  await checkScreens(tab, "playground", () => open(tab), pictures);
  await checkScreens(tab, "playground with faults", () => openFaulty(tab), pictures);
  await checkScreens(tab, "playground with an answer", () => openAnswered(tab), pictures);
  await checkScreens(tab, "playground with drawn orders", () => openAnswered(tab, "sample", "missed_wakeup"), pictures);
  await tab.screen(1280, 900, false);
  await openAnswered(tab);
  await checkTree(tab, "the playground with an answer", 1);
  await checkScreens(tab, "playground with assembly", () => openAssembly(tab, open), pictures);
  await checkAssemblyTree(tab, open);
  await checkAssemblyDownloads(tab, open);
  await checkDocuments(tab);
  await tab.screen(1280, 900, false);
  await open(tab);
  await checkCases(tab, "Chromium", cases);
  await checkAssembled(tab, "Chromium", readLines(`${answers}.assembly`));
  await checkSpeed(tab);
  checkQuiet(tab, "the playground");
  await tab.ask(() => localStorage.clear());
  await checkTabs(newTab);
  const one = await inChromium(url, newTab);
  await checkPerson(one);
  checkQuiet(one.tab(), "the playground at work");
  await checkBanner(await newTab());
}).then(() => end(), end);
