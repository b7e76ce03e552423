/**
 * drive.js FOLDER [PICTURES]: opens the pages of FOLDER in Chromium, and looks at them as a person
 * would. NAME.html is the page of a whole run and NAME.json its JSON report; large.html is a page
 * of 5,000 events. Pictures are put into the folder PICTURES. Prints what failed, and last
 * 'N passed, M failed'.
 */
"use strict";
const fs = require("node:fs");
const path = require("node:path");
const { withBrowser } = require("./browser.js");
const { check, checkFocus, checkQuiet, checkScreens, checkTree, end } = require("./checks.js");

const [folder, pictures] = process.argv.slice(2);
const same = (one, other) => JSON.stringify(one) === JSON.stringify(other);
const isMarked = (event) => event.outcome === "trap" || event.clears !== undefined;
const fileUrl = (file) => `file://${path.resolve(folder, file)}`;

/** The texts of data in a page's file, read without a browser. */
function dataOf(file) {
  const page = fs.readFileSync(path.join(folder, file), "utf8");
  const textOf = (id) =>
    JSON.parse(page.split(`<script type="application/json" id="${id}">`)[1].split("</script>")[0]);
  return { ...textOf("explanation"), opening: textOf("state"), listing: textOf("listing") };
}

// ------------------------------------------------ what is asked in the page; runs there

/** What the tables of harts and memory show: each place to its tag and word, and its mark. */
function shownPlaces() {
  const places = {};
  for (const row of document.querySelectorAll("[data-place]")) {
    places[row.dataset.place] = {
      tag: row.querySelector(".tag").textContent === "1",
      word: row.querySelector(".word code").textContent,
      from: row.querySelector(".from").textContent,
      mark: row.querySelector(".mark")?.textContent ?? "",
    };
  }
  return places;
}

function moment() {
  return {
    place: document.getElementById("place").textContent,
    words: document.getElementById("words").textContent,
    line: document.querySelector("#listing-text li[aria-current]")?.value,
    event: document.querySelector("#events tr[aria-current] button")?.textContent,
    statuses: [...document.querySelectorAll("h3 .status")].map((one) => one.textContent),
  };
}

function bars() {
  return [...document.querySelectorAll("[data-place]")].flatMap((row) => {
    const svg = row.querySelector("svg.bar");
    if (!svg) return [];
    const reach = svg.querySelector(".reach");
    const [code, ram] = svg.querySelectorAll(".region");
    const ends = (rect) => {
      const left = Number(rect.getAttribute("x"));
      return [left, left + Number(rect.getAttribute("width"))];
    };
    return [{ place: row.dataset.place, reach: ends(reach), code: ends(code), ram: ends(ram) }];
  });
}

/** The longest time in milliseconds that a move of the slider takes, of some far and near ones. */
function longestMove() {
  const slider = document.getElementById("slider");
  return Math.max(...[0, 5000, 2500, 1, 2, 3].map((count) => {
    const began = performance.now();
    slider.value = count;
    slider.dispatchEvent(new Event("input"));
    document.body.getBoundingClientRect();
    return performance.now() - began;
  }));
}

// ------------------------------------------------------------------------- the checks

/** Where the page opens: at the first trap or cleared tag, else at the first event. */
async function checkOpening(tab, name, { events }) {
  const first = events.findIndex(isMarked);
  const wanted = first >= 0 ? first : 0;
  const found = await tab.ask(moment);
  check(`${name} opens at the first trap or cleared tag`,
    found.event === String(events[wanted].number) && found.line === events[wanted].line, found);
  const reasons = [events[wanted].why, ...Object.values(events[wanted].clears ?? {})];
  check(`${name} gives the reason in words`,
    reasons.every((why) => why === undefined || found.words.includes(why)), found.words);
}

/** Goes over the whole run by arrow keys; at each event what changed, and that alone, is marked. */
async function checkWalk(tab, name, { events }) {
  await tab.press("Home");
  let before = await tab.ask(shownPlaces);
  const wrong = [];
  for (let count = 1; count <= events.length; count += 1) {
    await tab.press("ArrowRight");
    const now = await tab.ask(shownPlaces);
    const { place, event } = await tab.ask(moment);
    if (place !== `${count} of ${events.length}`) wrong.push([count, place]);
    if (event !== String(events[count - 1].number)) wrong.push([count, event]);
    for (const [name, value] of Object.entries(now)) {
      const old = before[name] ?? { tag: false, word: "0000000000000000_0000000000000000", from: "" };
      const isChanged = old.tag !== value.tag || old.word !== value.word || old.from !== value.from;
      const mark = !isChanged ? "" : old.tag && !value.tag ? "tag cleared" : "changed";
      if (mark !== value.mark) wrong.push([count, name, mark, value.mark]);
    }
    for (const [name, { tag, word }] of Object.entries(before)) {
      if (!(name in now) && (tag || !/^[0_]+$/.test(word))) wrong.push([count, name, "is gone"]);
    }
    before = now;
  }
  check(`${name}: arrow keys go by one event, and what changed is marked`, wrong.length === 0,
    wrong.slice(0, 3));
}

/** The last state shown is that of the JSON report. */
async function checkEnd(tab, name) {
  const report = JSON.parse(fs.readFileSync(path.join(folder, `${name}.json`), "utf8"));
  await tab.press("End");
  const wanted = {};
  report.harts.forEach((hart, number) => {
    wanted[`${number}:pcc`] = hart.pcc;
    for (const [name, value] of Object.entries(hart.regs)) wanted[`${number}:${name}`] = value;
  });
  for (const [address, value] of Object.entries(report.mem)) wanted[`mem ${address}`] = value;
  const shown = await tab.ask(shownPlaces);
  const wrong = Object.keys({ ...wanted, ...shown }).filter((place) => {
    const [one, other] = [wanted[place], shown[place]];
    if (!one) return other.tag || !/^[0_]+$/.test(other.word);
    return !other || one.tag !== other.tag || one.word !== other.word;
  });
  check(`${name}: the last state is the report's`, wrong.length === 0, wrong);
  const { statuses } = await tab.ask(moment);
  check(`${name}: the harts have the report's statuses`,
    same(statuses.map((status) => status.split(":")[0]), report.harts.map((hart) => hart.status)),
    statuses);
}

/** Back to the first event: the state there is the one that the file holds. */
async function checkBack(tab, name, { opening }) {
  await tab.press("Home");
  const shown = await tab.ask(shownPlaces);
  const wrong = [];
  const compare = (place, value) => {
    const found = shown[place];
    if (!found || found.word !== value.word || found.from !== (value.from ?? "")) wrong.push(place);
  };
  opening.harts.forEach((hart, number) => {
    compare(`${number}:pcc`, hart.pcc);
    for (const [name, value] of Object.entries(hart.regs)) compare(`${number}:${name}`, value);
  });
  for (const [address, value] of Object.entries(opening.mem)) compare(`mem ${address}`, value);
  check(`${name}: going back shows the first state again`, wrong.length === 0, wrong);
}

/** The ends of each bar lie where its bounds say: code and RAM to scale, the rest in order. */
async function checkBars(tab, name, { image }) {
  const report = JSON.parse(fs.readFileSync(path.join(folder, `${name}.json`), "utf8"));
  await tab.press("End");
  const regions = [[0x10000000n, BigInt(4 * image.code), "code"],
    [0x80000000n, BigInt(image.ram), "ram"]];
  const addressAt = (bar, end) => {
    for (const [from, bytes, region] of regions) {
      const [left, right] = bar[region];
      if (end < left || end > right) continue;
      return from + BigInt(Math.round(Number(bytes) * (end - left) / (right - left)));
    }
    return null;
  };
  const wrong = [];
  const shown = await tab.ask(bars);
  for (const bar of shown) {
    const [owner, register] = bar.place.split(":");
    const value = bar.place.startsWith("mem ") ? report.mem[bar.place.slice(4)]
      : register === "pcc" ? report.harts[owner].pcc : report.harts[owner].regs[register];
    [value.base, value.top].forEach((bound, side) => {
      const address = BigInt(`0x${bound}`);
      const isInside = regions.some(([from, bytes]) => address >= from && address <= from + bytes);
      const drawn = addressAt(bar, bar.reach[side]);
      if (isInside ? drawn !== address : drawn !== null && !isEndOfRegion(drawn, regions)) {
        wrong.push([bar.place, bound, bar.reach]);
      }
    });
  }
  check(`${name}: the ${shown.length} bars end at base and top`, wrong.length === 0, wrong.slice(0, 3));
}

function isEndOfRegion(address, regions) {
  return regions.some(([from, bytes]) => address === from || address === from + bytes);
}

/** The slider, the buttons, the list and its filter. */
async function checkControls(tab, name, { events }) {
  const press = async (id, key) => {
    await tab.ask((id) => document.getElementById(id).focus(), id);
    await tab.press(key);
  };
  const place = async () => (await tab.ask(moment)).place;
  await press("slider", "Home");
  check(`${name}: Home on the slider`, await place() === `0 of ${events.length}`);
  await press("slider", "ArrowRight");
  check(`${name}: an arrow key on the slider`, await place() === `1 of ${events.length}`);
  await press("slider", "End");
  check(`${name}: End on the slider`, await place() === `${events.length} of ${events.length}`);
  await press("back", "Enter");
  check(`${name}: the button Back`, await place() === `${events.length - 1} of ${events.length}`);
  await press("first", "Enter");
  await press("next-marked", "Enter");
  const first = events.findIndex(isMarked);
  check(`${name}: the button to the next trap`, await place() === `${first + 1} of ${events.length}`);
  await press("only-marked", " ");
  const listed = await tab.ask(() => [...document.querySelectorAll("#events tbody tr")]
    .filter((row) => row.getClientRects().length).map((row) => row.querySelector("button").textContent));
  check(`${name}: the filter lists traps and cleared tags alone`,
    same(listed, events.filter(isMarked).map((event) => String(event.number))), listed);
  await press("only-marked", " ");
  await press("first", "Enter");
  await tab.ask(() => document.querySelector("#events tbody button").focus());
  await tab.press("ArrowDown");
  check(`${name}: arrow keys in the list`, await place() === `2 of ${events.length}`, await place());
}

/** A page of 5,000 events opens and moves quickly: the best of three, as machines are busy. */
async function checkLarge(tab) {
  const { events } = dataOf("large.html");
  check("large.html has 5,000 events", events.length === 5000, events.length);
  await tab.screen(1280, 800, false);
  let opened = Infinity;
  let moved = Infinity;
  for (let count = 0; count < 3; count += 1) {
    await tab.go(fileUrl("large.html"));
    opened = Math.min(opened,
      await tab.ask(() => performance.getEntriesByType("navigation")[0].loadEventEnd));
    moved = Math.min(moved, await tab.ask(longestMove));
  }
  check("a page of 5,000 events opens in less than a second", opened < 1000, opened);
  check("it goes to any of them in less than half a second", moved < 500, moved);
  console.log(`page: 5,000 events: opened in ${Math.round(opened)} ms, `
    + `the longest move took ${Math.round(moved)} ms`);
}

withBrowser(async (newTab) => {
  const names = fs.readdirSync(folder).filter((file) => file.endsWith(".html"))
    .map((file) => file.slice(0, -5)).filter((name) => name !== "large").sort();
  for (const name of names) {
    const tab = await newTab();
    const data = dataOf(`${name}.html`);
    await tab.screen(1280, 800, false);
    await tab.go(fileUrl(`${name}.html`));
    await checkOpening(tab, name, data);
    await checkWalk(tab, name, data);
    await checkEnd(tab, name);
    await checkBars(tab, name, data);
    await checkBack(tab, name, data);
    checkQuiet(tab, name);
  }
  const busiest = names.find((name) => {
    const { events } = dataOf(`${name}.html`);
    return events.some(isMarked) && events.length > 4;
  });
  const tab = await newTab();
  await tab.go(fileUrl(`${busiest}.html`));
  await checkTree(tab, busiest);
  await checkControls(tab, busiest, dataOf(`${busiest}.html`));
  await checkFocus(tab, busiest, ["slider", "only-marked", "BUTTON"]);
  await checkScreens(tab, busiest, () => tab.go(fileUrl(`${busiest}.html`)), pictures);
  if (fs.existsSync(path.join(folder, "large.html"))) await checkLarge(tab);
  checkQuiet(tab, busiest);
}).then(() => end(), end);
