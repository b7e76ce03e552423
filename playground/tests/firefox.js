/**
 * firefox.js PAGE ANSWERS: the playground in Firefox, from disk: the cases, a short path by keyboard, and that nothing
 * leaves the page. Prints what failed, and last 'N passed, M failed'.
 */
"use strict";
const path = require("node:path");
const { check, checkQuiet, end } = require("../../page/checks.js");
const { withFirefox } = require("./bidi.js");
const { isReady } = require("./asked.js");
const { checkAssembled, checkCases, readLines, readPage } = require("./common.js");
const { inFirefox } = require("./drivers.js");
const { checkPerson } = require("./person.js");

const [page, answers] = process.argv.slice(2);
const url = `file://${path.resolve(page)}`;
const cases = readLines(answers);
const { gallery } = readPage(page);
/** How long the page may take to be there, and how long where the machine is busy. */
const [MOST_LOADING, MOST_BUSY] = [500, 1000];

async function open(tab, fragment = "") {
  await tab.go("about:blank");
  const began = performance.now();
  await tab.go(url + fragment);
  for (let tries = 0; tries < 400 && !await tab.ask(isReady); tries += 1) {
    await new Promise((resolve) => setTimeout(resolve, 10));
  }
  return performance.now() - began;
}

const textOf = (tab, id) => tab.ask((id) => document.getElementById(id).textContent, id);
const valueOf = (tab, id) => tab.ask((id) => document.getElementById(id).value, id);
const focus = (tab, id) => tab.ask((id) => { document.getElementById(id).focus(); }, id);

async function checkPath(tab) {
  check("Firefox: the page opens at its first example", await valueOf(tab, "listing") === gallery[0].text);
  check("Firefox: and shows its run", /^Event \d+/.test(await textOf(tab, "words")), await textOf(tab, "words"));
  await focus(tab, "slider");
  await tab.press("Home");
  check("Firefox: Home on the slider", (await textOf(tab, "place")).startsWith("0 of "), await textOf(tab, "place"));
  await tab.press("0", "Alt");
  check("Firefox: Alt with a digit steps a hart", await valueOf(tab, "order") === "0", await valueOf(tab, "order"));
  await focus(tab, "undo");
  await tab.press("Enter");
  check("Firefox: undo takes it back", (await valueOf(tab, "order")).length > 1);
  await focus(tab, "bounds-base");
  await tab.press("Enter");
  check("Firefox: bounds answers a line", (await textOf(tab, "bounds-line")).startsWith("ie="));
  await focus(tab, "share");
  await tab.press("Enter");
  for (let tries = 0; tries < 100 && !await valueOf(tab, "share-link"); tries += 1) {
    await new Promise((resolve) => setTimeout(resolve, 20));
  }
  const link = await valueOf(tab, "share-link");
  const words = await textOf(tab, "words");
  await open(tab, link.slice(url.length));
  check("Firefox: the link opens the same page", await valueOf(tab, "listing") === gallery[0].text
    && await textOf(tab, "words") !== "" && link.startsWith(`${url}#1.`), [link.slice(0, 80), words]);
}

withFirefox(async (newTab) => {
  const tab = await newTab();
  let loaded = Infinity;
  // machines are busy: the best of some
  for (let count = 0; count < 10 && loaded > MOST_LOADING; count += 1) loaded = Math.min(loaded, await open(tab));
  console.log(`playground: Firefox: the page is there: ${loaded.toFixed(0)} ms`);
  check("Firefox: the page is there in less than a second", loaded < MOST_BUSY, loaded);
  await checkPath(tab);
  await checkCases(tab, "Firefox", cases);
  await checkAssembled(tab, "Firefox", readLines(`${answers}.assembly`));
  checkQuiet({ ...tab, requests: tab.requests.filter((one) => !one.startsWith("about:")) }, "the playground in Firefox");
  const one = await inFirefox(url, newTab);
  await checkPerson(one);
  const { requests, complaints } = one.tab();
  checkQuiet({ complaints, requests: requests.filter((one) => !one.startsWith("about:")) },
    "the playground in Firefox at work");
}).then(() => end(), end);
