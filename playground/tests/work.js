/** What becomes of work: what is kept, asked, taken back and said, files and links; in either browser. */
"use strict";
const {
  HEAD, choose, click, enter, forget, hashOf, linkOf, openExample, openOver, textOf, valueOf,
} = require("./hands.js");

const LOOP = `${HEAD}again:\naddi c6, c6, 1\ncjal c0, again\n`;

// ------------------------------------------------------------------- work is kept

async function checkKept(one, say) {
  await forget(one);
  const first = await valueOf(one, "listing");
  const link = await linkOf(one);
  say("a made link stands in the address", (await hashOf(one)).startsWith("#1."), await hashOf(one));
  await enter(one, "listing", `${first}# mine\n`);
  say("the fragment goes at the first edit", await hashOf(one) === "", await hashOf(one));
  await one.reload();
  say("an edit after a made link survives a reload", (await valueOf(one, "listing")).endsWith("# mine\n"));
  await one.open(link.slice(link.indexOf("#")));
  say("a link opens its listing over kept work", await valueOf(one, "listing") === first);
  await enter(one, "order", "01");
  await one.reload();
  const reloaded = await valueOf(one, "order");
  say("an edit after an opened link survives a reload", reloaded === "01", reloaded);
  await enter(one, "listing", `${first}# second\n`);
  await one.fresh();
  say("what was typed survives a closed tab", (await valueOf(one, "listing")).endsWith("# second\n"));
  const names = await one.ask(() => [...document.querySelectorAll("#work option")].map((option) => option.textContent));
  say("both pieces of work are kept by name", names.length === 2 && names[0] !== names[1], names);
  await one.ask(() => { document.getElementById("work").selectedIndex = 1; });
  await click(one, "work-open");
  say("the other piece is opened", (await valueOf(one, "listing")).endsWith("# mine\n"));
  await choose(one, "work-name", "the lock");
  await one.reload();
  say("a name is kept", await valueOf(one, "work-name") === "the lock", await valueOf(one, "work-name"));
  await click(one, "work-delete");
  const left = await one.ask(() => document.querySelectorAll("#work option").length);
  await click(one, "undo");
  say("a deleted piece comes back by undo", left === 1
    && await one.ask(() => document.querySelectorAll("#work option").length) === 2, left);
}

async function checkAsked(one, say) {
  await forget(one);
  await openExample(one, "leak");
  say("an example over another is opened at once", (await valueOf(one, "order")).startsWith("00"));
  await enter(one, "listing", `${HEAD}addi c6, c0, 1\necall\n`);
  await enter(one, "order", "0");
  await openExample(one, "copy");
  const words = await textOf(one, "question-words");
  say("an example over own work asks", await one.ask(() => document.getElementById("question")?.open === true)
    && words.includes("copy"), words);
  await click(one, "question-no");
  say("no leaves the work", (await valueOf(one, "listing")).startsWith(HEAD));
  await openExample(one, "copy");
  await click(one, "question-yes");
  say("yes opens it", !(await valueOf(one, "listing")).startsWith(HEAD));
  await click(one, "undo");
  const [back, place] = [await valueOf(one, "listing"), await textOf(one, "place")];
  const order = await valueOf(one, "order");
  say("undo leads back to own work", back.startsWith(HEAD) && order === "0" && place === "1 of 1", [order, place]);
}

// ------------------------------------------------------------------- nothing without a word

async function checkUndo(one, say) {
  await forget(one);
  await openExample(one, "leak");
  const order = await valueOf(one, "order");
  await one.ask(() => {
    document.getElementById("sweep-low").value = "9";
    document.getElementById("sweep-high").value = "1";
  });
  await one.ask(() => document.querySelector("#sweep button").click());
  const isFaulty = (await textOf(one, "order-fault")).includes("4 Range");
  say("a refused sweep can be undone", isFaulty && !await one.ask(() => document.getElementById("undo").disabled));
  await click(one, "undo");
  say("undo takes a refused sweep back", await valueOf(one, "order") === order, await valueOf(one, "order"));
  await enter(one, "order", `${order}x`);
  say("a faulty order can be undone", !await one.ask(() => document.getElementById("undo").disabled));
  await click(one, "undo");
  say("undo takes a faulty order back", await valueOf(one, "order") === order, await valueOf(one, "order"));
}

async function checkNotices(one, say) {
  await forget(one);
  await openExample(one, "lost_update");
  const order = await valueOf(one, "order");
  for (const [kind, text] of [["a faulty", `${HEAD}nothing\n`], ["an empty", ""]]) {
    await enter(one, "listing", text);
    await one.ask(() => document.querySelector("#race button").click());
    say(`${kind} listing isn't raced, and that is said`, await valueOf(one, "order") === order
      && (await textOf(one, "notice")).includes("listing is faulty"), await textOf(one, "notice"));
    await click(one, "run");
    say(`${kind} listing isn't run, and that is said`, await valueOf(one, "order") === order
      && (await textOf(one, "notice")).includes("listing is faulty"), await textOf(one, "notice"));
  }
  await forget(one);
  await one.ask(() => {
    Storage.prototype.setItem = () => { throw new DOMException("full", "QuotaExceededError"); };
  });
  await enter(one, "order", "0");
  say("where the browser keeps nothing, that is said", (await textOf(one, "notice")).includes("doesn't keep")
    && (await textOf(one, "work-state")).includes("not kept"), await textOf(one, "notice"));
  await forget(one);
  await one.open("#1.AAAA");
  const said = await textOf(one, "notice");
  await enter(one, "order", "0");
  say("the notice of a broken link goes at the next edit", said.includes("can't be read")
    && await textOf(one, "notice") === "", [said, await textOf(one, "notice")]);
}

async function checkFields(one, say) {
  await forget(one);
  const answers = async (form, id, text, line) => {
    await enter(one, id, text);
    await one.ask((form) => document.querySelector(`#${form} button`).click(), form);
    return [await textOf(one, `${id}-read`), await textOf(one, line)];
  };
  const word = "000c000004188004_0000000080000020";
  const [read, decoded] = await answers("decode", "decode-word", word, "decode-line");
  say("a word is decoded as the page shows it", decoded.includes("base=0000000080000000 top=00000000080000064")
    && read === "read as 0xc0000041880040000000080000020", [read, decoded]);
  const [again, digits] = await answers("bounds", "bounds-base", "0000000080000001", "bounds-line");
  say("16 digits with leading zeros are hexadecimal", digits.includes("base=0000000080000000")
    && again === "read as 0x80000001", [again, digits]);
  const [top] = await answers("bounds", "bounds-len", "00000000080001008", "bounds-line");
  say("17 digits are, too", top === "read as 0x80001008", top);
  const [decimal, bounds] = await answers("bounds", "bounds-base", "1000", "bounds-line");
  say("other digits are decimal", decimal === "read as 0x3e8" && bounds.includes("ie="), [decimal, bounds]);
  const [none, bad] = await answers("decode", "decode-word", "c0ffee", "decode-line");
  say("what is no number stays none", none === "" && bad === "bad number", [none, bad]);
  const [prefixed, refused] = await answers("decode", "decode-word", `0x${word}`, "decode-line");
  say("so is what a command line doesn't take", prefixed === "" && refused === "bad number", [prefixed, refused]);
}

// ------------------------------------------------------------------- files and links

async function checkFiles(one, say) {
  const give = (name, text, isDropped) => one.ask((name, text, isDropped) => {
    const moved = new DataTransfer();
    moved.items.add(new File([text], name));
    if (isDropped) {
      document.dispatchEvent(new DragEvent("drop", { dataTransfer: moved, bubbles: true, cancelable: true }));
    } else {
      document.getElementById("file").files = moved.files;
      document.getElementById("file").dispatchEvent(new Event("change"));
    }
  }, name, text, isDropped);
  await give("mine.lst", LOOP, false);
  const isOpen = await one.until((text) => document.getElementById("listing").value === text, LOOP);
  const name = await valueOf(one, "work-name");
  say("a file is opened from the disk, under its name", isOpen && name === "mine", name);
  await give("some.order", "000\n", true);
  const isPut = await one.until(() => document.getElementById("order").value === "000\n");
  say("an order that is dropped is put into its field", isPut && await valueOf(one, "listing") === LOOP);
  await give("other.lst", `${HEAD}ecall\n`, true);
  say("a listing that is dropped is opened",
    await one.until(() => document.getElementById("work-name").value === "other"));
}

async function checkLinks(one, say) {
  await openOver(one, "leak");
  await click(one, "first");
  await click(one, "on");
  const link = await linkOf(one);
  const fragment = link.slice(link.indexOf("#"));
  await forget(one);
  await one.open(fragment);
  const chosen = await one.ask(() => [document.getElementById("example").value,
    document.querySelector("#example-lesson a")?.getAttribute("href")].join());
  say("and the menu has the example that it opens, with its part of the lesson", /^leak,lesson\.html#part-3$/.test(chosen),
    chosen);
  say("a link opens its position and name", (await textOf(one, "place")).startsWith("1 of")
    && await valueOf(one, "work-name") === "leak", [await textOf(one, "place"), await valueOf(one, "work-name")]);
  await one.open("#decode=000c000004188004_0000000080000000");
  const line = await textOf(one, "decode-line");
  say("a link asks a tool", line.includes("top=00000000080000064") && await textOf(one, "notice") === "", line);
  await enter(one, "listing", LOOP);
  await one.ask(() => { location.hash = "#1.AAAA"; });
  await one.until(() => document.getElementById("notice").textContent !== "");
  say("a broken link in the same tab leaves what is open", await valueOf(one, "listing") === LOOP
    && (await textOf(one, "notice")).includes("stays") && await hashOf(one) === "", await textOf(one, "notice"));
  await one.ask((fragment) => { location.hash = fragment; }, fragment);
  const isOpened = await one.until(() => document.getElementById("work-name").value === "leak");
  await click(one, "undo");
  say("another link in the same tab is opened, and undone", isOpened && await valueOf(one, "listing") === LOOP);
  await one.open(`${fragment}&embed=1`);
  const isSeen = (id) => one.ask((id) => document.getElementById(id).getClientRects().length > 0, id);
  const seen = [];
  for (const id of ["listing", "harts", "steps", "example", "share"]) seen.push(await isSeen(id));
  say("embedded there are no gallery and no links", seen.join() === "true,true,true,false,false", seen);
  const kept = () => one.ask(() => JSON.stringify(Object.entries(localStorage).sort()));
  const before = await kept();
  await enter(one, "order", "1");
  say("embedded nothing is kept", await kept() === before, await kept());
  const isTaken = () => one.until(async () => {
    const { hash } = new URL(document.getElementById("whole-page").href);
    return !hash.includes("embed") && (await share.read(hash))?.order === "1";
  });
  say("embedded there is a link to the whole page, with what was changed", await isTaken(),
    await one.ask(() => document.getElementById("whole-page").href));
  await one.reload();
  say("a reload brings back what the frame had", await isSeen("example") === false && await valueOf(one, "order") !== "1",
    await valueOf(one, "order"));
}

module.exports = { parts: [checkKept, checkAsked, checkUndo, checkNotices, checkFields, checkFiles, checkLinks] };
