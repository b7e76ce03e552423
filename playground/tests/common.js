/** What the tests share: the parts of the built page, the cases, and how they are counted. */
"use strict";
const fs = require("node:fs");
const path = require("node:path");
const vm = require("node:vm");
const zlib = require("node:zlib");
const { check } = require("../../page/checks.js");
const { differing, differingAssembly, differingLooks } = require("./asked.js");

const TOP = path.resolve(__dirname, "../..");

/** The text of a script element of the page. */
function dataOf(page, id) {
  const begin = page.indexOf(">", page.indexOf(`id="${id}"`)) + 1;
  return page.slice(begin, page.indexOf("</script>", begin));
}

/** The built page: its bytes of the module, its gallery and its scripts. */
function readPage(file) {
  const page = fs.readFileSync(file, "utf8");
  return {
    page,
    module: zlib.inflateRawSync(Buffer.from(dataOf(page, "module-data"), "base64")),
    gallery: JSON.parse(dataOf(page, "gallery-data")),
    help: JSON.parse(dataOf(page, "help-data")),
  };
}

/** What scripts of the page define, run without a page. */
function scriptsOf(names, wanted) {
  const text = names.map((name) => fs.readFileSync(path.join(TOP, name), "utf8")).join("\n");
  const context = vm.createContext({
    TextDecoder, TextEncoder, WebAssembly, Uint8Array, DataView, BigInt, structuredClone,
    CompressionStream, DecompressionStream, Blob, Response, atob, btoa,
  });
  return vm.runInContext(`${text}\n({ ${wanted.join(", ")} })`, context);
}

/** The script of the module's calls. */
const MACHINE = ["playground/machine.js"];

/** The calls of the module, in node. */
function machineOf(file) {
  const { machine } = scriptsOf(MACHINE, ["machine"]);
  machine.begin(new Uint8Array(readPage(file).module));
  return machine;
}

/** One JSON object a line. */
function readLines(file) {
  return fs.readFileSync(file, "utf8").split("\n").filter(Boolean).map((line) => JSON.parse(line));
}

/** The bytes of a text whose characters are bytes. */
const bytesOf = (text) => Uint8Array.from(text, (one) => one.charCodeAt(0));

const same = (one, other) => JSON.stringify(one) === JSON.stringify(other);

/** Eight harts that store, load and narrow capabilities without end. */
function busyListing(harts = 8) {
  const lines = [];
  for (let hart = 0; hart < harts; hart += 1) {
    lines.push(".hart 0x10000000 24 0x10000000 execute",
      `.set c5 cap 0x80000000 4096 ${0x80000000 + 16 * hart} load+store+load_cap+store_cap+global`);
  }
  lines.push("again:", "sc c5, 0(c5)", "lc c7, 0(c5)", "csetboundsimm c8, c7, 8", "addi c9, c9, 1",
    "cjal c0, again", "");
  return lines.join("\n");
}

/** Asks a browser's page about so many of the cases at a time, and gives the names that it answers. */
async function namesOf(tab, what, cases, count) {
  const names = [];
  for (let at = 0; at < cases.length; at += count) names.push(...await tab.ask(what, cases.slice(at, at + count)));
  return names;
}

/** In a browser: the cases of assembly. */
async function checkAssembled(tab, browser, cases) {
  const differ = await namesOf(tab, differingAssembly, cases, 20);
  check(`${browser} answers ${cases.length} cases of assembly as the model does`,
    differ.length === 0 && cases.length > 100, differ);
}

/** In a browser: the cases, and each position of those that are looked at. */
async function checkCases(tab, browser, cases) {
  const differ = await namesOf(tab, differing, cases.map(({ look, facts, ...one }) => one), 20);
  check(`${browser} answers ${cases.length} cases as the program does`, differ.length === 0 && cases.length > 400,
    differ);
  const looked = cases.filter(({ look }) => look).map(({ name, listing, order, look, facts }) =>
    ({ name, listing, order, look, facts }));
  if (looked.length === 0) return;
  const wrong = await namesOf(tab, differingLooks, looked, 4);
  check(`${browser} answers each position of ${looked.length} runs as the program does`,
    wrong.length === 0 && looked.length > 40, wrong);
}

module.exports = { MACHINE, TOP, busyListing, bytesOf, checkAssembled, checkCases, machineOf, readLines, readPage, same, scriptsOf };
