/**
 * What a person does with work, faults, runs, the diagram and every order, asked in the same words of both browsers. `one` drives a
 * browser: `open(fragment)`, `fresh()` (a new tab in place of the old), `reload()`, `ask`, `until`,
 * `press(key, ..held)`, `drag(from, to)`, `screen(width, height)`.
 */
"use strict";
const { check } = require("../../page/checks.js");
const asm = require("./asm.js");
const orders = require("./orders.js");
const shown = require("./shown.js");
const work = require("./work.js");

/** All of it, in a browser. */
async function checkPerson(one) {
  const say = (name, holds, found) => check(`${one.name}: ${name}`, holds, found);
  for (const part of [...work.parts, ...shown.parts, ...asm.parts, ...orders.parts]) {
    const began = Date.now();
    try {
      await part(one, say);
    } catch (fault) {
      say(`${part.name} came to its end`, false, String(fault.stack ?? fault).slice(0, 300));
    }
    if (process.env.TIMES) console.log(one.name, part.name, Date.now() - began);
  }
  await one.ask(() => { localStorage.clear(); });
}

module.exports = { checkPerson };
