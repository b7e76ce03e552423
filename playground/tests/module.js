/**
 * module.js PAGE ANSWERS EXPLORE: the module of the built page in node: the cases and the gallery beside the
 * native programs, each position of some, replays, every order, limits, little memory. EXPLORE is cheri_explore, or -
 * where it is not there. Prints what failed, and last 'N passed, M failed'.
 */
"use strict";
const { MACHINE, busyListing, bytesOf, machineOf, readLines, readPage, same, scriptsOf } = require("./common.js");
const { check, end } = require("../../page/checks.js");
const { checkSearches } = require("./searched.js");

const [page, answers, explore = "-"] = process.argv.slice(2);
const machine = machineOf(page);
const { STATUS } = machine;
const cases = readLines(answers);
const assemblies = readLines(`${answers}.assembly`);
const hasExplain = machine.has("cheri_explain");
const LAST = 4_294_967_295;

/** The parts of an answer that are compared. */
const partsOf = ({ status, kind, place, column, text, line }) => ({ status, kind, place, column, text, line });

/** The same bytes as the native programs. */
function checkCases() {
  const differ = { check: [], run: [], json: [], explain: [] };
  for (const one of cases) {
    const texts = [bytesOf(one.listing), bytesOf(one.order)];
    const found = {
      check: machine.check(texts[0]), run: machine.run(...texts), json: machine.json(...texts),
      explain: hasExplain && one.explain && machine.explain(...texts, 0, LAST),
    };
    // The program's check says what a good listing has.
    one.check.text = "";
    for (const name of Object.keys(differ)) {
      if (found[name] && !same(partsOf(found[name]), partsOf(one[name]))) differ[name].push(one.name);
    }
  }
  for (const [name, names] of Object.entries(differ)) {
    // without cheri_explain there is nothing to compare with, which playground/test names as skipped
    if (name === "explain" && !(hasExplain && cases.some((one) => one.explain))) continue;
    const count = cases.filter((one) => one[name]).length;
    check(`${name} answers ${count} cases as the program does`, names.length === 0 && count > 400, names);
  }
}

/** Assembly: its listing, its map or its fault as the model has them, and the native explanation by the map. */
function checkAssembly() {
  const differ = { assemble: [], map: [], explain: [] };
  for (const one of assemblies) {
    const text = bytesOf(one.assembly);
    const found = {
      assemble: machine.assemble(text), map: machine.map(text, one.file),
      explain: one.explain?.map((told) => partsOf(machine.explainMap(one.assemble.text, one.order, told.map, 0, LAST))),
    };
    for (const name of ["assemble", "map"]) {
      if (!same(partsOf(found[name]), partsOf(one[name]))) differ[name].push(one.name);
    }
    if (one.explain && !same(found.explain, one.explain.map(partsOf))) differ.explain.push(one.name);
  }
  for (const [name, names] of Object.entries(differ)) {
    const count = assemblies.filter((one) => one[name]).length;
    if (name === "explain" && count === 0) continue;
    check(`${name} answers ${count} cases of assembly as it is to`, names.length === 0 && count > 50, names);
  }
  const kinds = new Set(assemblies.map(({ assemble }) => assemble.kind));
  check("the cases of assembly have each kind of fault", [...Array(14).keys()].every((kind) => kinds.has(kind)), [...kinds]);
}

/** The faulty lines that the module tells of a listing: the lines of their faults. */
const faultsOf = (listing) => machine.faults(listing).text.split("\n").slice(0, -1);

/** All faulty lines of a listing: the first as `check` tells it, each in order and once, and none because of another. */
function checkFaultyLines() {
  const wrong = cases.filter(({ listing, check: first }) => {
    const told = faultsOf(bytesOf(listing));
    const isOfLine = first.status === STATUS.LISTING && first.place > 0;
    const lines = told.map((line) => Number(/^listing line (\d+): /.exec(line)?.[1]));
    return told.length > 0 !== isOfLine || (isOfLine && told[0] !== first.line)
      || lines.some((line, index) => index > 0 && line <= lines[index - 1]);
  }).map(({ name }) => name);
  check("the faulty lines of each case begin with the fault that is told", wrong.length === 0, wrong);
  const hart = ".hart 0x10000000 64 0x10000000 execute";
  const many = [hart, "frob", "again: nop", "addi c1, c2", "beq c1, c2, again", "again:", "5x:", "j nowhere", ".set c1 int x",
    "ecall", "\u00e9", "cjal c0, again"].join("\n");
  check("no line is faulty because of another", same(faultsOf(many), [
    "listing line 2: 2 Word", "listing line 3: 3 Operand", "listing line 4: 3 Operand", "listing line 6: 6 Twice",
    "listing line 7: 5 Label", "listing line 8: 2 Word", "listing line 9: 3 Operand", "listing line 11: 1 NotAscii"]),
  faultsOf(many));
  check("100 readings of a listing", faultsOf(`${hart}\n${"frob\n".repeat(200)}`).length === 100);
}

/** What is shown of each good case of assembly: each instruction at its line, with its label. */
function checkPlaces() {
  const { assembly } = scriptsOf(["playground/source.js", "playground/assembly.js"], ["assembly"]);
  const wrong = assemblies.filter(({ assemble }) => assemble.status === STATUS.DONE).filter((one) => {
    const program = assembly.ofAssembly(one.assembly, one.assemble.text, one.map.text);
    const lines = one.assemble.text.split("\n");
    const code = lines.map((line, index) => [line, index + 1]).filter(([line]) => /^[a-z]/.test(line));
    return !one.map.text.match(/^code .*$/gm).every((told, number) => {
      const [, place, label] = /^code \d+ (\S+) (.*)$/.exec(told);
      const [text, line] = code[number];
      if (place === "-") return program.lineOf(line) === null && program.nameOf(line) === `the ${label}`;
      const own = Number(place.split(":")[1]);
      return program.lineOf(line) === own && program.textsAt(own).includes(text)
        && (label === "-" || program.words[line - 1].startsWith(`${label}: `)) && program.addresses.has(own);
    });
  }).map(({ name }) => name);
  check("each instruction of assembly is shown at its line, with its label", wrong.length === 0, wrong);
}

/** A name that is no text, the longest file, and one that is longer; the answer's line is the program's. */
function checkAssemblyLimits() {
  const named = machine.map("main: nop\n", bytesOf("\xff"));
  check("a name that is no text", named.status === STATUS.NAME && named.line === "bad name", named);
  const filled = (count) => `nop\n${"#".repeat(count - 4)}`;
  const longest = machine.assemble(filled(4_194_304));
  check("4,194,304 bytes of assembly", longest.status === STATUS.DONE, longest.line);
  const longer = machine.assemble(filled(4_194_305));
  check("one byte more", longer.line === "assembly 1:0:0: 13 Size" && longer.place === 0, longer.line);
  const most = machine.assemble("nop\n".repeat(16_382));
  check("16,382 instructions, the guard and the exit", most.status === STATUS.DONE
    && most.text.split("\n").length === 16_389, most.line);
  const faulty = machine.explainMap("x\n", "0", "", 0, LAST);
  check("a listing is judged before its map", faulty.line === "listing line 1: 2 Word", faulty.line);
  const none = machine.explainMap(".hart 0x10000000 4 0x10000000 execute\necall\n", "x", "", 0, LAST);
  check("a map is judged before the order", none.status === STATUS.MAP && none.line === "map line 1", none.line);
}

/** The line of the next instruction of each running hart, by the listing alone. */
function nextOf(state, listing) {
  const isCode = (line) => !/^[ \t,]*(#|$|\.|[^ \t,#]*:)/.test(line);
  const lines = listing.split("\n").map((line, index) => [line, index + 1])
    .filter(([line]) => isCode(line)).map(([, number]) => number);
  return state.harts.map(({ status, pcc }) => {
    const place = BigInt(`0x${pcc.word.split("_")[1]}`) - 0x10000000n;
    const isThere = status === "running" && place >= 0n && place % 4n === 0n;
    return (isThere && lines[Number(place / 4n)]) || null;
  });
}

/** Each fault of a listing is told in words, at a place of its line. */
function checkFaults() {
  const { faults } = scriptsOf(["page/draw.js", "playground/source.js", "playground/faults.js"], ["faults"]);
  const forms = new Map(readPage(page).help.map(({ name, operands }) => [name, operands]));
  const kinds = new Set();
  const wrong = cases.filter(({ listing, check }) => {
    if (check.status !== STATUS.LISTING || check.place === 0) return false;
    const line = listing.split("\n")[check.place - 1];
    const found = faults.explain(line, check.kind, forms);
    kinds.add(check.kind);
    const part = found && (line.slice(found.at, found.at + found.length) || "the end of the line");
    return !found || !found.expected || (part !== found.found && found.found !== "the end of the line");
  }).map(({ name, check }) => [name, check.line]);
  check("each fault of a listing is told in words at its place", wrong.length === 0 && kinds.size >= 8, [wrong, [...kinds]]);
}

const HEAD_OF_EVENT = /^\d+ hart=.*? (?:trap cause=(\d+) reg=\d+|done|halt) \| line \d+: (\S+)/;

/** The table of instructions beside the explanations of all cases: the causes of traps, and results without a tag. */
function checkHelp() {
  const table = new Map(readPage(page).help.map((row) => [row.name, row]));
  const seen = new Set();
  const wrong = new Set();
  for (const { explain } of cases.filter((one) => one.explain)) {
    for (const event of explain.text.split(/\n(?=\d)/)) {
      const [, cause, name] = HEAD_OF_EVENT.exec(event) ?? [];
      const row = table.get(name);
      if (!name) continue;
      if (!row || (cause && !row.traps.includes(Number(cause)))) wrong.add(`${name} traps ${cause}`);
      if (row?.tag === "none: an integer" && /^ {2}sets c\d+ 1 /m.test(event)) wrong.add(`${name} sets a tag`);
      seen.add(cause ? `${name} ${cause}` : name);
    }
  }
  const missing = [...table.keys()].filter((name) => !seen.has(name));
  check("the table of instructions holds of all cases, which have each instruction",
    wrong.size === 0 && missing.length === 0, [[...wrong], missing]);
}

/** Each position: the state of `cheri_explain --html`, the program's events, and the next lines. */
function checkLooks() {
  const looked = cases.filter((one) => one.look);
  if (!cases.some((one) => one.explain)) return;
  const wrong = [];
  let positions = 0;
  for (const one of looked) {
    const texts = [one.listing, one.order];
    const { events } = one.facts;
    one.look.forEach((state, at) => {
      const found = JSON.parse(machine.look(...texts, at, 0, LAST).text);
      positions += 1;
      if (found.at !== at || !same(sorted(found.state), sorted(state))) wrong.push([one.name, at, "state"]);
      if (!same(sorted(found.events), sorted(events))) wrong.push([one.name, at, "events"]);
      if (!same(found.next, nextOf(state, one.listing))) wrong.push([one.name, at, "next", found.next]);
      const near = JSON.parse(machine.look(...texts, at, at, at + 1).text);
      if (!same(near, { ...found, events: found.events.slice(at, at + 2) })) wrong.push([one.name, at, "near"]);
    });
    const past = machine.look(...texts, LAST, 1, 0);
    const { at, events: none } = JSON.parse(past.text);
    if (at !== events.length || none.length || past.status !== one.run.status) wrong.push([one.name, "past the end", at]);
  }
  check(`${positions} positions of ${looked.length} runs are those of the program`,
    wrong.length === 0 && looked.length > 40, wrong.slice(0, 5));
}

/** A refused text has the fault that the other calls tell, and no object. */
function checkRefusedLooks() {
  const refused = cases.filter(({ run }) => run.status === STATUS.LISTING || run.status === STATUS.ORDER);
  const wrong = refused.filter((one) =>
    !same(partsOf(machine.look(bytesOf(one.listing), bytesOf(one.order), 0, 0, LAST)), partsOf(one.run)));
  check(`${refused.length} refused texts have no position`, wrong.length === 0 && refused.length > 100,
    wrong.map(({ name }) => name));
}

/** At each position of each run of the gallery the script that applies events has the module's state. */
function checkReplay() {
  const { replay } = scriptsOf(["page/draw.js", "page/view.js", "page/replay.js"], ["replay"]);
  const runs = cases.filter(({ name, run }) => name.startsWith("gallery") && run.text !== "");
  const wrong = [];
  let positions = 0;
  for (const { name, listing, order } of runs) {
    const lookAt = (at) => JSON.parse(machine.look(listing, order, at, 0, LAST).text);
    const { state, events } = lookAt(0);
    const run = replay.ofRun(state, events);
    for (let at = 0; at <= events.length; at += 1) {
      positions += 1;
      if (!same(sorted(run.at(at).state), sorted(lookAt(at).state))) wrong.push([name, at]);
    }
  }
  check(`applying events comes to the module's state at ${positions} positions of ${runs.length} runs of the gallery`,
    wrong.length === 0 && runs.length > 20, wrong.slice(0, 5));
}

/** A value with its members in the order of their names. */
function sorted(value) {
  if (value === null || typeof value !== "object") return value;
  if (Array.isArray(value)) return value.map(sorted);
  return Object.fromEntries(Object.keys(value).sort().map((key) => [key, sorted(value[key])]));
}

// ------------------------------------------------------------------- limits

/** The milliseconds that a call takes: the first, and the median of some more. */
function times(work, count = 7) {
  const taken = [];
  for (let one = 0; one <= count; one += 1) {
    const began = performance.now();
    work();
    taken.push(performance.now() - began);
  }
  const [first, ...more] = taken;
  return { first, median: more.sort((a, b) => a - b)[count >> 1] };
}

function checkSpeed() {
  const busy = busyListing();
  const long = "01234567".repeat(12_500);
  const some = "01234567".repeat(625);
  const rows = Array.from({ length: 16_383 }, (_, n) => `l${n}:\nbeq c1, c2, l${16_382 - n}`).join("\n");
  const full = `.hart 0x10000000 4 0x10000000 execute\n${"#".repeat(1_048_530)}\necall\n`;
  const figures = {
    "a report of 100,000 steps": [times(() => machine.run(busy, long)), 500],
    "a JSON report of 100,000 steps": [times(() => machine.json(busy, long)), 2000],
    "a check of 1,048,576 bytes": [times(() => machine.check(full)), 200],
    "a check of 16,383 labelled branches": [
      times(() => machine.check(`.hart 0x10000000 4 0x10000000 execute\n${rows}`)), 200],
    "a position among 5,000 events": [times(() => machine.look(busy, some, 2500, 2400, 2600)), 50],
  };
  for (const [name, [{ first, median }, most]] of Object.entries(figures)) checkTime(name, first, median, most);
  const bytes = machine.memoryBytes();
  console.log(`playground: node: memory ${(bytes / 1e6).toFixed(0)} MB`);
  check("memory is below 256 MiB at 100,000 steps", bytes < 268_435_456, bytes);
}

function checkTime(name, first, median, most) {
  console.log(`playground: node: ${name}: ${median.toFixed(1)} ms, the first ${first.toFixed(1)} ms`);
  check(`${name} takes less than ${most} ms`, Math.min(first, median) < most, { first, median });
}

function checkAssemblySpeed() {
  const statements = `main:\n${"\taddi\ta0, a0, 1\t# one more than before, and so on\n".repeat(16_000)}`
    .padEnd(1_048_576, "#");
  const { first, median } = times(() => machine.assemble(statements));
  checkTime("a listing of 1,048,576 bytes of assembly", first, median, 500);
}

function checkLimits() {
  const one = ".hart 0x10000000 4 0x10000000 execute\n";
  const many = "01234567".repeat(12_500);
  const run = machine.run(busyListing(), many);
  check("100,000 steps are run", run.status === STATUS.DONE && /^entries 100000$/m.test(run.text), run.line);
  check("100,001 steps are too many", machine.run(busyListing(), `${many}0`).line === "order byte 0: 2 Size");
  const filled = (bytes) => `${one}${"#".repeat(bytes - one.length - 7)}\necall\n`;
  check("a listing of 1,048,576 bytes", machine.check(filled(1_048_576)).status === STATUS.DONE);
  check("one byte more", machine.check(filled(1_048_577)).line === "listing line 0: 9 Size");
  check("8 harts", machine.check(`${one.repeat(8)}ecall\n`).status === STATUS.DONE);
  check("9 harts", machine.check(`${one.repeat(9)}ecall\n`).line === "listing line 9: 9 Size");
  const ram = machine.run(`.ram 1048576\n${one}ecall\n`, "0");
  check("1 MiB of RAM", ram.status === STATUS.DONE && ram.text.includes("ram=1048576"), ram.line);
  check("an empty listing", machine.check("").line === "listing line 0: 8 NoHart");
  check("bounds", machine.bounds("0x80000001", "4096").text
    === "ie=1 e=0 t=080 b=0000 base=0000000080000000 top=00000000080001008 exact=no\n"
    || machine.bounds("0x80000001", "4096").text.endsWith("exact=no\n"), machine.bounds("0x80000001", "4096"));
  check("a bad number", machine.bounds("5x", "1").line === "bad number" && machine.bounds("5", "").status === STATUS.NUMBER);
  check("a decoded word", machine.decode("0").text.startsWith("perms=00000 flag=0 type=unsealed"), machine.decode("0"));
  check("a word above 128 bits", machine.decode(`0x1${"0".repeat(32)}`).line === "bad number");
  if (!hasExplain) return;
  const explained = machine.explain(busyListing(), "01234567".repeat(5000), 0, LAST);
  check("an explanation longer than the room", explained.status === STATUS.DONE
    && explained.text.endsWith("\nend\n"), [explained.status, explained.text.length]);
}

/** With 25 MiB of memory a large report is out of memory, nothing traps, and the next call is right. */
function checkLittleMemory() {
  const { machine: small } = scriptsOf(MACHINE, ["machine"]);
  small.begin(new Uint8Array(readPage(page).module));
  small.limit(26_214_400);
  const long = "01234567".repeat(12_500);
  const out = small.json(busyListing(), long);
  check("with 25 MiB a large report is out of memory", out.status === STATUS.MEMORY && out.line === "memory",
    [out.status, out.line]);
  const again = small.run(cases[0].listing, cases[0].order);
  check("and the next call is right", same(partsOf(again), partsOf(cases[0].run)), again.line);
  const much = small.assemble(`${"addi a0, a0, 1\n".repeat(16_000)}${"#".repeat(3_000_000)}`);
  check("with 25 MiB much assembly is out of memory", much.status === STATUS.MEMORY && much.line === "memory",
    [much.status, much.line]);
  const first = assemblies.find(({ assemble }) => assemble.status === STATUS.DONE);
  check("and the next assembly is right", same(partsOf(small.assemble(bytesOf(first.assembly))), partsOf(first.assemble)));
}

/** The same calls again and again need no more memory. */
function checkSteadyMemory() {
  const good = `main:\n${"\taddi\ta0, a0, 1\t# one more\n".repeat(1000)}`;
  const { text } = machine.assemble(good);
  const rounds = (count) => {
    for (let one = 0; one < count; one += 1) {
      machine.map(good, "prog.s");
      machine.assemble(`${good}frob`);
      machine.run(text, "0".repeat(100));
      machine.check(`${text}frob`);
      machine.look(text, "0".repeat(100), 50, 0, 99);
    }
    return machine.memoryBytes();
  };
  const [first, later] = [rounds(10), rounds(30)];
  check("the same calls again need no more memory", first === later, [first, later]);
}

/** Room that is just enough, and one byte less: by the module's own exports. */
function checkRoom() {
  const instance = new WebAssembly.Instance(new WebAssembly.Module(readPage(page).module), {});
  const { exports } = instance;
  const put = (text) => {
    const bytes = new TextEncoder().encode(text);
    const place = exports.page_room(BigInt(bytes.length));
    new Uint8Array(exports.memory.buffer, Number(place), bytes.length).set(bytes);
    return [place, BigInt(bytes.length)];
  };
  const listing = put(".hart 0x10000000 4 0x10000000 execute\necall\n");
  const order = put("0");
  const [out, answer] = [exports.page_room(4096n), exports.page_room(40n)];
  const call = (room) => {
    exports.cheri_run(...listing, ...order, out, BigInt(room), answer);
    const view = new DataView(exports.memory.buffer, Number(answer), 40);
    return [view.getUint32(0, true), Number(view.getBigUint64(24, true))];
  };
  const [status, length] = call(4096);
  check("there is room", status === STATUS.DONE && length > 100, [status, length]);
  check("room that is just enough", same(call(length), [STATUS.DONE, length]), call(length));
  check("a byte too little", same(call(length - 1), [STATUS.ROOM, length]), call(length - 1));
  check("no room", same(call(0), [STATUS.ROOM, length]), call(0));
}

checkCases();
checkAssembly();
checkFaultyLines();
checkPlaces();
checkAssemblyLimits();
checkFaults();
checkHelp();
checkLooks();
checkRefusedLooks();
checkReplay();
checkSearches(machine, explore);
checkRoom();
checkSteadyMemory();
checkLimits();
checkLittleMemory();
checkSpeed();
checkAssemblySpeed();
end();
