/**
 * The module's answers about every order and about orders drawn by chance, in node: those of the files of the gallery and of
 * an independent model, and the native program's bytes.
 */
"use strict";
const fs = require("node:fs");
const path = require("node:path");
const { spawnSync } = require("node:child_process");
const { check } = require("../../page/checks.js");
const { TOP, same } = require("./common.js");

const EXAMPLES = path.join(TOP, "examples");
const LIMIT = 100_000;
const CUT = 50;
/** How orders are drawn by chance. */
const [RUNS, SEED, LENGTH] = [40, 261_129, 120];
/**
 * What an independent model says of orders drawn by chance: the example, runs, seed, length and depth; how many runs came to
 * each end, were hung and were cut; the longest; and each trap's hart, cause and runs.
 */
const DRAWN = [
  ["lost_update", [1000, 0, 1000, 0], [122, 743, 135], 0, 0, 8, []],
  ["missed_wakeup", [400, 261_129, 1000, 0], [176, 111], 113, 0, 1000, []],
  ["broken_lock", [600, 0, 24, 3], [273, 322, 5], 0, 0, 22, []],
  ["overflow", [300, 7, 100, 2], [300], 0, 0, 22, [[0, 8, 300]]],
  ["aba", [500, 1, 40, 0], [174, 267, 30, 7, 6], 0, 16, 40, []],
  ["revocation", [200, 3, 60, 1], [], 200, 0, 60, []],
];

const named = (pattern) => fs.readdirSync(EXAMPLES).filter((name) => pattern.test(name))
  .map((name) => [name.split(".")[0], fs.readFileSync(path.join(EXAMPLES, name), "utf8")]);
const listingOf = (name) => fs.readFileSync(path.join(EXAMPLES, `${name}.lst`), "utf8");

/** The lines of an answer's text that its object says too. */
const endlessLine = ({ answer, order, loop }) => `endless ${answer}${loop === undefined ? "" : ` order=${order} loop=${loop}`}`;
const statesLine = ({ states, complete }) => `states ${states} ${complete ? "complete" : "unfinished"}`;
const propertyLine = ({ line, answer, property, order, loop }) => `line ${line} ${answer}`
  + `${order === undefined ? "" : ` order=${order}`}${loop === undefined ? "" : ` loop=${loop}`} | ${property}`;

function checkOutcomes(machine) {
  const files = named(/^\w+\.outcomes$/);
  const wrong = files.filter(([name, told]) => {
    const found = JSON.parse(machine.outcomes(listingOf(name), LIMIT).text);
    const lines = [statesLine(found), endlessLine(found.endless),
      ...found.outcomes.map(({ order }, number) => `outcome ${number} order=${order}`)];
    return !same(lines, told.split("\n").filter((line) => /^(states|endless|outcome) /.test(line)));
  }).map(([name]) => name);
  check(`the ends of ${files.length} listings are those of their files`, wrong.length === 0 && files.length > 3, wrong);
}

function checkProperties(machine) {
  const files = named(/^\w+\.check$/);
  const wrong = files.filter(([name, told]) => {
    const found = JSON.parse(machine.verdicts(listingOf(name), LIMIT).text);
    const lines = [statesLine(found), ...found.properties.map(propertyLine)];
    return !same(lines, told.split("\n").filter((line) => /^(states|line) /.test(line)));
  }).map(([name]) => name);
  check(`the properties of ${files.length} listings are answered as in their files`, wrong.length === 0
    && files.length > 10, wrong);
}

function checkDrawn(machine) {
  const wrong = DRAWN.map(([name, numbers, ...wanted]) => {
    const { outcomes, hung, cut, longest, traps } = JSON.parse(machine.sample(listingOf(name), ...numbers).text);
    const found = [outcomes.map(({ runs }) => runs), hung.runs, cut.runs, longest,
      traps.map(({ hart, cause, runs }) => [hart, cause, runs])];
    return [name, found, wanted];
  }).filter(([, found, wanted]) => !same(found, wanted));
  check(`orders of ${DRAWN.length} listings drawn by chance come to what a model says`, wrong.length === 0, wrong);
}

/** What is refused, and where. */
function checkRefused(machine) {
  const { STATUS } = machine;
  const listing = listingOf("lock");
  const told = ({ status, place, column, line }) => [status, place, column, line];
  const cases = [
    [machine.find(listing, "two harts in enter..nowhere", LIMIT), [STATUS.CONDITION, 13, 0, "bad condition at byte 13"]],
    [machine.rows(listing, "0.c6,nothing", LIMIT), [STATUS.ITEMS, 5, 0, "bad place at byte 5"]],
    [machine.verdicts(listingOf("first"), LIMIT), [STATUS.PROPERTIES, 0, 0, "bad property at line 0 byte 0"]],
    [machine.verdicts(".hart 0x10000000 4 0x10000000 execute\necall\n#! never 0 at x\n", LIMIT),
      [STATUS.PROPERTIES, 3, 14, "bad property at line 3 byte 14"]],
    [machine.outcomes("x\n", LIMIT), [STATUS.LISTING, 1, 0, "listing line 1: 2 Word"]],
    [machine.sample("x\n", 1, 0, 1, 0), [STATUS.LISTING, 1, 0, "listing line 1: 2 Word"]],
    ...[[0, 0, 1, 0], [1_000_001, 0, 1, 0], [1, 16_777_216, 1, 0], [1, 0, 0, 0], [1, 0, 100_001, 0], [1, 0, 1, 17],
      [1, 0, 1, 257]].map((numbers) => [machine.sample(listing, ...numbers), [STATUS.NUMBER, 0, 0, "bad number"]]),
  ];
  const wrong = cases.map(([found, wanted]) => [told(found), wanted]).filter(([found, wanted]) => !same(found, wanted));
  check("what is refused of a question has its place", wrong.length === 0, wrong);
}

/** Each question about each listing of the gallery, whole and cut, beside the native program. */
function checkBytes(machine, explore) {
  const wrong = [];
  let count = 0;
  const ask = (name, found, ...words) => {
    const ran = spawnSync(explore, [words[0], path.join(EXAMPLES, `${name}.lst`), ...words.slice(1), "--json"],
      { encoding: "utf8", maxBuffer: 1 << 28 });
    count += 1;
    if (found.text !== ran.stdout) wrong.push([name, words, found.line || found.text.slice(0, 80), ran.stdout.slice(0, 80)]);
  };
  for (const [name, listing] of named(/^\w+\.lst$/)) {
    for (const states of [CUT, 2000]) {
      const limit = ["--states", String(states)];
      ask(name, machine.outcomes(listing, states), "outcomes", ...limit);
      ask(name, machine.rows(listing, "0.status,0.c6", states), "outcomes", "--show", "0.status,0.c6", ...limit);
      ask(name, machine.find(listing, "any hart is trapped", states), "find", "any hart is trapped", ...limit);
      if (/^#! /m.test(listing)) ask(name, machine.verdicts(listing, states), "check", ...limit);
    }
    for (const depth of [0, 1, 3]) {
      ask(name, machine.sample(listing, RUNS, SEED, LENGTH, depth), "sample", "--orders", String(RUNS),
        "--seed", String(SEED), "--length", String(LENGTH), ...(depth > 0 ? ["--depth", String(depth)] : []));
    }
  }
  check(`${count} questions about orders have the program's bytes`, wrong.length === 0 && count > 200, wrong.slice(0, 3));
}

/** All of it; EXPLORE is `-` where the native program is not there. */
function checkSearches(machine, explore) {
  checkOutcomes(machine);
  checkProperties(machine);
  checkDrawn(machine);
  checkRefused(machine);
  if (explore !== "-") checkBytes(machine, explore);
}

module.exports = { checkSearches };
