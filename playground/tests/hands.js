/** What a person's hands do in a page of either browser: `one` drives it, as `drivers.js` has it. */
"use strict";

const HEAD = ".hart 0x10000000 4096 0x10000000 execute\n.set c5 cap 0x80000000 64 0x80000000 load+store\n";

/** Puts a text into a field, as typing does. */
function enter(one, id, text) {
  return one.ask((id, text) => {
    const field = document.getElementById(id);
    field.focus();
    field.value = text;
    field.dispatchEvent(new InputEvent("input", { bubbles: true }));
  }, id, text);
}

const click = (one, id) => one.ask((id) => { document.getElementById(id).click(); }, id);
const textOf = (one, id) => one.ask((id) => document.getElementById(id)?.textContent ?? "", id);
const valueOf = (one, id) => one.ask((id) => document.getElementById(id)?.value ?? "", id);
const hashOf = (one) => one.ask(() => location.hash);
const choose = (one, id, value) => one.ask((id, value) => {
  document.getElementById(id).value = value;
  document.getElementById(id).dispatchEvent(new Event("change", { bubbles: true }));
}, id, value);

async function openExample(one, name, number = 0) {
  await choose(one, "example", name);
  await one.ask((number) => { document.querySelectorAll("#example-orders button")[number].click(); }, number);
}

async function forget(one) {
  await one.open();
  await one.ask(() => { localStorage.clear(); sessionStorage.clear(); });
  await one.open();
}

async function linkOf(one) {
  await one.ask(() => { document.getElementById("share-link").value = ""; });
  await click(one, "share");
  for (let tries = 0; tries < 100 && !await valueOf(one, "share-link"); tries += 1) {
    await new Promise((resolve) => setTimeout(resolve, 20));
  }
  return valueOf(one, "share-link");
}

/** Opens an example, and says yes where that asks. */
async function openOver(one, name, number = 0) {
  await openExample(one, name, number);
  await one.ask(() => document.getElementById("question").open && document.getElementById("question-yes").click());
}

module.exports = { HEAD, choose, click, enter, forget, hashOf, linkOf, openExample, openOver, textOf, valueOf };
