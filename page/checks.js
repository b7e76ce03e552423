/**
 * Checks that hold of every page: contrast, names and roles, focus, width, and that nothing leaves
 * it. They count what passed and failed.
 */
"use strict";
const path = require("node:path");

let passed = 0;
let failed = 0;

/** Counts a case, and prints one that fails with what was found. */
function check(name, holds, found) {
  if (holds) passed += 1;
  else {
    failed += 1;
    console.log(`page: FAILED: ${name}${found === undefined ? "" : `: ${JSON.stringify(found)}`}`);
  }
}

/** Prints the closing line and ends; a fault that ended the work early is a failure too. */
function end(fault) {
  if (fault) check("the work came to its end", false, fault.stack);
  console.log(`${passed} passed, ${failed} failed`);
  process.exit(failed > 0 ? 1 : 0);
}

/** Texts whose contrast with what lies below them is less than 4.5. */
function faintTexts() {
  const numbers = (colour) => colour.match(/[\d.]+/g).map(Number);
  const light = ([r, g, b]) => [r, g, b].map((part) => part / 255)
    .map((part) => (part <= 0.04045 ? part / 12.92 : ((part + 0.055) / 1.055) ** 2.4))
    .reduce((sum, part, index) => sum + part * [0.2126, 0.7152, 0.0722][index], 0);
  const below = (element) => {
    for (let one = element; one; one = one.parentElement) {
      const colour = numbers(getComputedStyle(one).backgroundColor);
      if (colour.length === 3 || colour[3] === 1) return colour;
    }
    return [255, 255, 255];
  };
  const walker = document.createTreeWalker(document.body, NodeFilter.SHOW_TEXT);
  const faint = [];
  while (walker.nextNode()) {
    const element = walker.currentNode.parentElement;
    if (!walker.currentNode.data.trim() || !element.getClientRects().length) continue;
    const [one, other] = [light(numbers(getComputedStyle(element).color)), light(below(element))];
    const contrast = (Math.max(one, other) + 0.05) / (Math.min(one, other) + 0.05);
    if (contrast < 4.5) faint.push([walker.currentNode.data.slice(0, 40), contrast]);
  }
  return faint;
}

/** Roles, names, captions and headers, as a screen reader has them, of at least so many tables. */
async function checkTree(tab, name, fewest = 3) {
  const tree = await tab.tree();
  const controls = ["button", "slider", "checkbox", "link", "textbox", "combobox", "spinbutton"];
  const unnamed = tree.filter(({ role, name }) => controls.includes(role) && !name.trim());
  check(`${name}: every control has a name`, unnamed.length === 0, unnamed);
  const tables = tree.filter(({ role }) => role === "table");
  check(`${name}: every table has a caption`,
    tables.length >= fewest && tables.every(({ name }) => name.trim()), tables.length);
  const roles = new Set(tree.map(({ role }) => role));
  for (const role of ["columnheader", "rowheader", "main", "status", "heading", "slider"]) {
    check(`${name}: there is a ${role}`, roles.has(role));
  }
  check(`${name}: drawings have words`, tree.filter(({ role }) => role === "image")
    .every(({ name }) => name.startsWith("reaches")));
}

/** The tab key comes to every control, and what has the focus shows it. */
async function checkFocus(tab, name, wanted) {
  await tab.ask(() => { document.activeElement.blur(); window.scrollTo(0, 0); });
  const seen = new Set();
  const unseen = [];
  for (let count = 0; count < 40; count += 1) {
    await tab.press("Tab");
    const { id, outline } = await tab.ask(() => ({
      id: document.activeElement.id || document.activeElement.tagName,
      outline: getComputedStyle(document.activeElement).outlineStyle,
    }));
    seen.add(id);
    if (id !== "BODY" && outline === "none") unseen.push(id);
  }
  check(`${name}: what has the focus shows it`, unseen.length === 0, unseen);
  check(`${name}: the tab key comes to ${wanted.join(", ")}`, wanted.every((id) => seen.has(id)),
    [...seen]);
}

/** A phone's width and a wide one, in dark and light, and no motion where none is asked for. */
async function checkScreens(tab, name, open, pictures) {
  for (const [width, height] of [[320, 640], [1280, 800]]) {
    for (const isDark of [false, true]) {
      const words = `${name} at ${width} pixels, ${isDark ? "dark" : "light"}`;
      await tab.screen(width, height, isDark);
      await open();
      const wide = await tab.ask(() => document.scrollingElement.scrollWidth);
      check(`${words}: doesn't scroll sideways`, wide <= width, wide);
      const faint = await tab.ask(faintTexts);
      check(`${words}: contrast of text is at least 4.5`, faint.length === 0, faint.slice(0, 3));
      if (pictures) {
        await tab.picture(path.join(pictures, `${name}-${width}-${isDark ? "dark" : "light"}.png`));
      }
    }
  }
  await tab.send("Emulation.setEmulatedMedia",
    { features: [{ name: "prefers-reduced-motion", value: "reduce" }] });
  const moving = await tab.ask(() => [...document.querySelectorAll("*")].filter((one) => {
    const style = getComputedStyle(one);
    return style.animationName !== "none" || parseFloat(style.transitionDuration) > 0;
  }).length);
  check(`${name}: nothing moves where no motion is asked for`, moving === 0, moving);
}

/** Nothing leaves the page, and the console stays empty. */
function checkQuiet(tab, name) {
  // the script of a worker is a blob of the page's own
  const outside = tab.requests.filter((url) => !/^(file|data|blob):/.test(url));
  check(`${name}: no request leaves the page`, outside.length === 0, outside);
  check(`${name}: the console stays empty`, tab.complaints.length === 0, tab.complaints);
}

module.exports = { check, checkFocus, checkQuiet, checkScreens, checkTree, end };
