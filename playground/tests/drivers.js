/** A browser as `person.js` drives it: the same words over Chromium and over Firefox. */
"use strict";
const { isReady } = require("./asked.js");

/** Waits until a question that is asked in the page is answered by true. Gives whether it was. */
async function until(tab, what, ...words) {
  for (let tries = 0; tries < 200; tries += 1) {
    if (await tab.ask(what, ...words)) return true;
    await new Promise((resolve) => setTimeout(resolve, 25));
  }
  return false;
}

/** Goes to the page with a fragment, from an empty one. */
async function open(tab, url, fragment = "") {
  await tab.go("about:blank");
  await tab.go(url + fragment);
  return until(tab, isReady);
}

/** What both have: `state.tab` is the tab that is driven. */
function driverOf(name, url, state, newTab, own) {
  return {
    name,
    ask: (...words) => state.tab.ask(...words),
    until: (...words) => until(state.tab, ...words),
    open: (fragment) => open(state.tab, url, fragment),
    drag: (from, to) => state.tab.drag(from, to),
    fresh: async () => {
      const old = state.tab;
      state.tab = await newTab();
      await own.close(old);
      await open(state.tab, url);
    },
    press: (key, ...held) => own.press(state.tab, key, held),
    reload: async () => {
      await own.reload(state.tab);
      await until(state.tab, isReady);
    },
    screen: (width, height) => own.screen(state.tab, width, height),
    tab: () => state.tab,
  };
}

const MODIFIERS = { Alt: 1, Control: 2 };

const inChromium = async (url, newTab) => driverOf("Chromium", url, { tab: await newTab() }, newTab, {
  close: (tab) => tab.send("Page.close"),
  press: (tab, key, held) => tab.press(key, held.reduce((sum, one) => sum + MODIFIERS[one], 0)),
  reload: async (tab) => {
    await tab.ask(() => { document.documentElement.dataset.ready = "no"; });
    await tab.send("Page.reload");
  },
  screen: (tab, width, height) => tab.screen(width, height, false),
});

const inFirefox = async (url, newTab) => driverOf("Firefox", url, { tab: await newTab() }, newTab, {
  close: (tab) => tab.close(),
  press: (tab, key, held) => tab.press(key, ...held),
  reload: (tab) => tab.reload(),
  screen: (tab, width, height) => tab.screen(width, height),
});

module.exports = { inChromium, inFirefox, until };
