/** What the buttons of the downloads give, in Chromium. */
"use strict";
const fs = require("node:fs");
const os = require("node:os");
const path = require("node:path");
const { check } = require("../../page/checks.js");

/** Each button gives a file with the wanted text, by its name. */
async function checkDownloaded(tab, wanted) {
  const folder = fs.mkdtempSync(path.join(os.tmpdir(), "downloads-"));
  await tab.send("Browser.setDownloadBehavior", { behavior: "allow", downloadPath: folder }).catch(() =>
    tab.connection.send("Browser.setDownloadBehavior", { behavior: "allow", downloadPath: folder }));
  const names = Object.keys(wanted);
  const found = (name) => {
    const file = path.join(folder, name);
    return fs.existsSync(file) ? fs.readFileSync(file, "utf8") : null;
  };
  for (const name of names) {
    await tab.ask((name) => document.querySelector(`[data-file="${name}"]`).focus(), name);
    await tab.press("Enter");
    for (let tries = 0; tries < 400 && found(name) !== wanted[name]; tries += 1) {
      await new Promise((resolve) => setTimeout(resolve, 50));
    }
  }
  const wrong = names.filter((name) => found(name) !== wanted[name])
    .map((name) => `${name}: ${found(name)?.length ?? "none"} of ${wanted[name].length} bytes`);
  check("downloads have the right bytes", wrong.length === 0, wrong);
  fs.rmSync(folder, { recursive: true, force: true });
}

module.exports = { checkDownloaded };
