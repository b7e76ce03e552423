/** Assembly in Chromium: as a screen reader has it, by the tab key, and what is downloaded. `open(tab)` opens the page. */
"use strict";
const { check, checkFocus, checkTree } = require("../../page/checks.js");
const { MEANT, TEXT } = require("./asm.js");
const { checkDownloaded } = require("./downloads.js");

/** The page with assembly that is faulty at a column, over the listing that it meant before. */
async function openAssembly(tab, open) {
  await open(tab);
  await tab.ask((text) => {
    const enter = (text) => {
      document.getElementById("listing").value = text;
      document.getElementById("listing").dispatchEvent(new InputEvent("input"));
    };
    if (!document.getElementById("assembly").checked) document.getElementById("assembly").click();
    enter(text);
    document.getElementById("run").click();
    for (const details of document.querySelectorAll("details")) details.open = true;
    enter(text.replace("16(ca0)", "16000(ca0)"));
  }, TEXT);
}

/** The switch, the text and the listing that it means, as a screen reader has them. */
async function checkAssemblyTree(tab, open) {
  await openAssembly(tab, open);
  const tree = await tab.tree();
  const has = (role, name) => tree.some((node) => node.role === role && node.name === name);
  check("assembly: the switch, the text and the listing have roles and names", has("switch", "assembly")
    && has("textbox", "Assembly") && has("region", "The listing of the last good assembly"),
  tree.filter(({ role }) => ["switch", "textbox", "region"].includes(role)).map(({ role, name }) => [role, name]));
  await checkTree(tab, "assembly");
  await checkFocus(tab, "assembly", ["assembly", "listing", "meant-words", "meant-listing"]);
}

/** Of assembly there are its text and its map, too, and the explanation has the map's words. */
async function checkAssemblyDownloads(tab, open) {
  await open(tab);
  await tab.ask((text) => {
    if (!document.getElementById("assembly").checked) document.getElementById("assembly").click();
    document.getElementById("work-name").value = "sums";
    document.getElementById("work-name").dispatchEvent(new Event("change", { bubbles: true }));
    for (const [id, words] of [["listing", text], ["order", "000000"]]) {
      document.getElementById(id).value = words;
      document.getElementById(id).dispatchEvent(new InputEvent("input", { bubbles: true }));
    }
  }, TEXT);
  const wanted = await tab.ask((assembly, listing) => {
    const { text: map } = machine.map(assembly, "sums.s");
    return {
      "assembly.s": assembly, "listing.lst": listing, "program.map": map, "report.txt": machine.run(listing, "000000").text,
      "explanation.txt": machine.explainMap(listing, "000000", map, 0, 4_294_967_295).text,
    };
  }, TEXT, MEANT);
  check("the explanation of assembly names file, line and label",
    wanted["explanation.txt"].includes(" | sums.s:5 main+20: sw c11, 16(c10)"), wanted["explanation.txt"]);
  await checkDownloaded(tab, wanted);
  await tab.ask(() => localStorage.clear());
}

module.exports = { checkAssemblyDownloads, checkAssemblyTree, openAssembly };
