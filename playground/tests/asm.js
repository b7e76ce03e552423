/** Assembly in the page: the switch, what the text means, its faults, events, help, files, links; in either browser. */
"use strict";
const fs = require("node:fs");
const path = require("node:path");
const { click, choose, enter, forget, hashOf, linkOf, openExample, textOf, valueOf } = require("./hands.js");

/** It stores into a word, and then beyond it. */
const TEXT = `main:
\tclgc\tca0, count
\tli\ta1, 0x12345678
\tcsw\ta1, 0(ca0)
\tcsw\ta1, 16(ca0)
\tcret
\t.data
count:\t.word 7
\t.size count, 4
`;

/** The listing that the model makes of it. */
const MEANT = `.ram 8192
.cap 0x80000000 0x80000010 4 0x80000010 global+load+store+load_cap+store_cap+cinvoke
.bytes 0x80000010 07000000000000000000000000000000
.hart 0x10000000 1881145344 0x10000000 global+execute+load+load_cap+cinvoke
.set c1 cap 0x10000000 1881145344 0x10000020 global+execute+load+load_cap+cinvoke sentry
.set c2 cap 0x80000020 4096 0x80001020 global+load+store+load_cap+store_cap+store_local+cinvoke
auipcc c10, 458752
lc c10, 0(c10)
lui c11, 74565
addiw c11, c11, 1656
sw c11, 0(c10)
sw c11, 16(c10)
cjalr c0, 0(c1)
cjalr c0, 0(c0)
ecall
`;

const LISTING = ".hart 0x10000000 4 0x10000000 execute\necall\n";

const isOn = (one) => one.ask(() => document.getElementById("assembly").checked);
const isSeen = (one, id) => one.ask((id) => document.getElementById(id).getClientRects().length > 0, id);

/** Opens the page anew, turns the switch on by its key, and types assembly. */
async function begin(one, text = TEXT) {
  await forget(one);
  await one.ask(() => { document.getElementById("assembly").focus(); });
  await one.press(" ");
  await enter(one, "order", "");
  await enter(one, "listing", text);
}

async function checkMeant(one, say) {
  await begin(one);
  say("the space key turns the switch to assembly", await isOn(one)
    && await textOf(one, "listing-title") === "Assembly", await textOf(one, "listing-title"));
  await one.ask(() => { document.getElementById("meant-words").focus(); });
  await one.press("Enter");
  await one.until(() => document.getElementById("meant-listing").textContent !== "");
  say("the listing that assembly means is shown", await textOf(one, "meant-listing") === MEANT,
    await textOf(one, "meant-listing"));
  await enter(one, "listing", `${TEXT}\tfrob\n`);
  say("of faulty assembly the last listing stays, and that is said", await textOf(one, "meant-listing") === MEANT
    && (await textOf(one, "meant-words")).includes("last good assembly"), await textOf(one, "meant-words"));
  say("so does its machine", await textOf(one, "stale") === "of the last good assembly", await textOf(one, "stale"));
  await enter(one, "listing", TEXT);
  await click(one, "run");
  say("assembly is run", /^00+$/.test(await valueOf(one, "order")) && await textOf(one, "listing-fault") === "",
    [await valueOf(one, "order"), await textOf(one, "notice")]);
}

async function checkEvents(one, say) {
  await begin(one);
  await click(one, "run");
  await click(one, "first");
  await click(one, "next-trap");
  const words = await textOf(one, "words");
  say("a trap is told by its line, its label and its statement",
    /^Event 5: hart 0, line 5: main\+20: csw a1, 16\(ca0\) .*Traps Length/.test(words.replace(/\s+/g, " ")), words);
  const marked = await one.ask(() => document.querySelector("#gutter [data-line='5']").textContent);
  say("and marked at that line", marked.startsWith("\u26a0"), marked);
  await click(one, "first");
  for (let count = 0; count < 3; count += 1) await click(one, "on");
  const many = await textOf(one, "words");
  say("of a statement's instructions the one is told that was done",
    many.includes("line 3: main+8: li a1, 0x12345678 (lui c11, 74565)"), many);
  say("the next instruction has its line", await textOf(one, "listing-next") === "Next: hart 0: line 3",
    await textOf(one, "listing-next"));
  await one.ask(() => {
    const field = document.getElementById("listing");
    field.focus();
    field.setSelectionRange(field.value.indexOf("li\t"), field.value.indexOf("li\t"));
    document.dispatchEvent(new Event("selectionchange"));
  });
  const help = await textOf(one, "help");
  say("help is of the instructions that a line means", help.includes("lui cd, upper") && help.includes("addiw cd, c1, i"), help);
  await click(one, "point");
  await click(one, "first");
  await click(one, "run");
  say("a run ends at a breakpoint of assembly", await textOf(one, "place") === "2 of 2", await textOf(one, "place"));
  await enter(one, "listing", "main:\tcret\n");
  await enter(one, "order", "0");
  say("the exit is no line of the text", await textOf(one, "listing-next") === "Next: hart 0: the exit",
    await textOf(one, "listing-next"));
}

async function checkFaults(one, say) {
  await begin(one, "main:\t\taddi a0, a0, 5000 # \u00e9\n");
  const fault = await textOf(one, "listing-fault");
  say("a fault of assembly is told with line and column", fault.startsWith("assembly 1:1:21: 4 Range"), fault);
  say("and what its kind means", /4 Range: ./.test(fault.slice(10)), fault);
  const place = () => one.ask(() => {
    const mark = document.querySelector("#bars .bar-of-line.faulty .at-column").getBoundingClientRect();
    const field = document.getElementById("listing").getBoundingClientRect();
    const ruler = document.createElement("span");
    ruler.textContent = "0".repeat(100);
    document.getElementById("bars").append(ruler);
    const width = ruler.getBoundingClientRect().width / 100;
    ruler.remove();
    return [(mark.left - field.left - parseFloat(getComputedStyle(document.getElementById("listing")).paddingLeft)) / width,
      mark.width / width].map(Math.round);
  });
  say("its place is underlined in the editor", (await place()).join() === "29,4", await place());
  await one.ask(() => { document.querySelector("#listing-fault button").focus(); });
  await one.press("Enter");
  const chosen = await one.ask(() => {
    const { value, selectionStart, selectionEnd } = document.getElementById("listing");
    return [document.activeElement.id, value.slice(selectionStart, selectionEnd)];
  });
  say("a button puts the cursor there", chosen.join() === "listing,5000", chosen);
  await enter(one, "listing", "# \u00e9\u00e9 \u2603\n.data; x: .ascii \"\u2603\u2603\", 5\n");
  say("a column counts bytes, and is marked where it is", (await textOf(one, "listing-fault")).startsWith("assembly 1:2:28: 3 Operand")
    && (await place()).join() === "23,1", [await textOf(one, "listing-fault"), await place()]);
  await enter(one, "listing", "");
  say("a fault of the whole has no place", (await textOf(one, "listing-fault")).startsWith("assembly 0:0:0: 13 Size")
    && await one.ask(() => document.querySelector("#listing-fault button") === null), await textOf(one, "listing-fault"));
  await click(one, "run");
  say("faulty assembly isn't run, and that is said", (await textOf(one, "notice")).includes("the assembly is faulty"),
    await textOf(one, "notice"));
}

async function checkSwitch(one, say) {
  await forget(one);
  await enter(one, "listing", LISTING);
  say("of a listing there are no files of assembly", !await isSeen(one, "meant")
    && await one.ask(() => [...document.querySelectorAll(".of-assembly")].every((button) => button.hidden)));
  await click(one, "assembly");
  const fault = await textOf(one, "listing-fault");
  say("a listing is no assembly", fault.startsWith("assembly 1:1:1: 2 Statement"), fault);
  await click(one, "undo");
  say("undo takes the switch back", !await isOn(one) && await textOf(one, "listing-fault") === ""
    && await textOf(one, "listing-title") === "Listing", await textOf(one, "listing-fault"));
  await click(one, "assembly");
  await enter(one, "listing", TEXT);
  await one.reload();
  say("the switch survives a reload", await isOn(one) && await valueOf(one, "listing") === TEXT
    && await textOf(one, "listing-fault") === "", await textOf(one, "listing-fault"));
  await click(one, "work-new");
  say("new work is assembly, too", await isOn(one) && (await valueOf(one, "listing")).startsWith("main:")
    && await textOf(one, "listing-fault") === "", await textOf(one, "listing-fault"));
  await openExample(one, "leak");
  say("an example is a listing", !await isOn(one) && await textOf(one, "listing-fault") === "");
  await click(one, "undo");
  say("undo leads back to assembly", await isOn(one) && (await valueOf(one, "listing")).startsWith("main:"));
}

async function checkFiles(one, say) {
  await forget(one);
  const drop = (name, text) => one.ask((name, text) => {
    const moved = new DataTransfer();
    moved.items.add(new File([text], name));
    document.dispatchEvent(new DragEvent("drop", { dataTransfer: moved, bubbles: true, cancelable: true }));
  }, name, text);
  const isOpen = (name) => one.until((name) => document.getElementById("work-name").value === name, name);
  await drop("mine.s", TEXT);
  say("a file .s is assembly", await isOpen("mine") && await isOn(one) && await valueOf(one, "listing") === TEXT);
  await drop("other.lst", LISTING);
  say("a file .lst is a listing", await isOpen("other") && !await isOn(one) && await valueOf(one, "listing") === LISTING);
  await drop("upper.S", "01\n");
  say("a file .S is assembly, whatever it has", await isOpen("upper") && await isOn(one), await valueOf(one, "listing"));
  await drop("some.order", "0\n");
  await one.until(() => document.getElementById("order").value === "0\n");
  say("an order stays an order", await isOn(one) && await valueOf(one, "listing") === "01\n");
}

async function checkLinks(one, say) {
  await begin(one);
  await enter(one, "order", "0000");
  await choose(one, "work-name", "two words");
  await click(one, "first");
  const link = await linkOf(one);
  say("a link of assembly says so", link.includes("&asm=1") && (await textOf(one, "share-words")).includes("has the assembly"),
    [link.slice(-60), await textOf(one, "share-words")]);
  const fragment = link.slice(link.indexOf("#"));
  await forget(one);
  await one.open(fragment);
  const opened = [await valueOf(one, "listing"), await valueOf(one, "order"), await textOf(one, "place")];
  say("the link opens the same assembly", await isOn(one) && opened.join() === [TEXT, "0000", "0 of 4"].join()
    && await valueOf(one, "work-name") === "two words", opened);
  await one.open(fragment.replace("&asm=1", ""));
  say("without that word it is a listing", !await isOn(one) && (await textOf(one, "listing-fault")).startsWith("listing line 2: 2 Word"),
    await textOf(one, "listing-fault"));
  await one.open(`${fragment}&embed=1`);
  say("embedded it is assembly, too", await isOn(one) && await isSeen(one, "meant") && await textOf(one, "listing-fault") === "",
    await hashOf(one));
}

/** Each file of assembly of the gallery opens with what the model made of it, and runs in its orders. */
async function checkGallery(one, say) {
  await forget(one);
  const folder = path.join(__dirname, "../../examples/asm");
  const names = fs.readdirSync(folder).filter((name) => name.endsWith(".s")).map((name) => name.slice(0, -2));
  await one.ask(() => { document.getElementById("meant").open = true; });
  const wrong = [];
  for (const name of names) {
    const orders = fs.readdirSync(folder).filter((file) => file.startsWith(`${name}.`) && file.endsWith(".order"));
    for (let number = 0; number < orders.length; number += 1) {
      await openExample(one, name, number);
      const listing = fs.readFileSync(path.join(folder, `${name}.lst`), "utf8");
      await one.until((listing) => document.getElementById("meant-listing").textContent === listing, listing);
      const found = [await isOn(one), await textOf(one, "meant-listing") === listing, await textOf(one, "listing-fault"),
        await textOf(one, "order-fault"), await textOf(one, "stale")];
      if (found.join() !== "true,true,,,") wrong.push([name, number, found]);
    }
  }
  say("each file of assembly of the gallery means what the model made of it", wrong.length === 0 && names.length >= 12, wrong);
}

module.exports = {
  MEANT, TEXT, parts: [checkMeant, checkEvents, checkFaults, checkSwitch, checkFiles, checkLinks, checkGallery],
};
