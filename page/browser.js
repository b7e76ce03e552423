/**
 * Drives Chromium over its DevTools protocol. Needs node 20 with --experimental-websocket and
 * Debian's chromium; no package.
 */
"use strict";
const { spawn } = require("node:child_process");
const fs = require("node:fs");
const os = require("node:os");
const path = require("node:path");

const KEYS = {
  ArrowLeft: 37, ArrowUp: 38, ArrowRight: 39, ArrowDown: 40, Home: 36, End: 35, Tab: 9,
  Enter: 13, " ": 32, Escape: 27, Delete: 46, F9: 120,
};

/** One connection to the browser; each message is answered by its number. */
class Connection {
  constructor(socket) {
    this.socket = socket;
    this.waiting = new Map();
    this.listeners = [];
    this.last = 0;
    socket.addEventListener("message", (message) => this.take(JSON.parse(message.data)));
  }

  take(message) {
    const waiting = this.waiting.get(message.id);
    if (!waiting) {
      for (const listener of this.listeners) listener(message);
      return;
    }
    this.waiting.delete(message.id);
    if (message.error) waiting.reject(new Error(message.error.message));
    else waiting.resolve(message.result);
  }

  send(method, params = {}, sessionId = undefined) {
    const id = ++this.last;
    this.socket.send(JSON.stringify({ id, method, params, sessionId }));
    return new Promise((resolve, reject) => this.waiting.set(id, { resolve, reject }));
  }
}

/** A tab, and what it asked of the network and wrote to its console. */
class Tab {
  constructor(connection, session) {
    this.connection = connection;
    this.session = session;
    this.requests = [];
    this.complaints = [];
    this.loads = [];
    connection.listeners.push((message) => {
      if (message.sessionId === session) this.notice(message.method, message.params);
    });
  }

  notice(method, params) {
    if (method === "Network.requestWillBeSent") this.requests.push(params.request.url);
    if (method === "Runtime.consoleAPICalled") {
      this.complaints.push(params.args.map((one) => one.value ?? one.description).join(" "));
    }
    if (method === "Runtime.exceptionThrown") {
      this.complaints.push(params.exceptionDetails.exception?.description ?? "exception");
    }
    if (method === "Log.entryAdded") this.complaints.push(params.entry.text);
    if (method === "Page.loadEventFired") this.loads.splice(0).forEach((resolve) => resolve());
  }

  send(method, params) {
    return this.connection.send(method, params, this.session);
  }

  async begin() {
    for (const domain of ["Page", "Network", "Runtime", "Log", "Accessibility", "DOM"]) {
      await this.send(`${domain}.enable`);
    }
  }

  /** The screen's width and height in pixels, and its colours. */
  async screen(width, height, isDark) {
    await this.send("Emulation.setDeviceMetricsOverride",
      { width, height, deviceScaleFactor: 1, mobile: width < 500 });
    await this.send("Emulation.setEmulatedMedia",
      { features: [{ name: "prefers-color-scheme", value: isDark ? "dark" : "light" }] });
  }

  async go(url) {
    const loaded = new Promise((resolve) => this.loads.push(resolve));
    await this.send("Page.navigate", { url });
    await loaded;
  }

  /** What a function gives in the page; its arguments and its result are JSON. */
  async ask(work, ...words) {
    const expression = `(${work})(${words.map((word) => JSON.stringify(word)).join(",")})`;
    const answer = await this.send("Runtime.evaluate",
      { expression, returnByValue: true, awaitPromise: true });
    if (answer.exceptionDetails) throw new Error(answer.exceptionDetails.exception.description);
    return answer.result.value;
  }

  async press(key, modifiers = 0) {
    const code = KEYS[key] ?? key.toUpperCase().charCodeAt(0);
    const text = key === "Enter" ? "\r" : key.length === 1 && !modifiers ? key : undefined;
    const place = /^\d$/.test(key) ? `Digit${key}` : key;
    const named = { key, code: place, windowsVirtualKeyCode: code, modifiers };
    await this.send("Input.dispatchKeyEvent",
      { type: text ? "keyDown" : "rawKeyDown", text, ...named });
    await this.send("Input.dispatchKeyEvent", { type: "keyUp", ...named });
  }

  /** Presses the mouse at one place, and lets it go at another. */
  async drag([x, y], [toX, toY]) {
    const send = (type, x, y, more) => this.send("Input.dispatchMouseEvent", { type, x, y, button: "left", ...more });
    await send("mousePressed", x, y, { clickCount: 1, buttons: 1 });
    await send("mouseMoved", (x + toX) / 2, (y + toY) / 2, { buttons: 1 });
    await send("mouseMoved", toX, toY, { buttons: 1 });
    await send("mouseReleased", toX, toY, { clickCount: 1 });
  }

  /** The parts of the accessibility tree that are not ignored: role, name and so on. */
  async tree() {
    const { nodes } = await this.send("Accessibility.getFullAXTree");
    return nodes.filter((node) => !node.ignored).map((node) => ({
      role: node.role?.value, name: node.name?.value ?? "", id: node.nodeId,
      children: node.childIds ?? [],
    }));
  }

  async picture(file, isWhole = false) {
    const { data } = await this.send("Page.captureScreenshot",
      { format: "png", captureBeyondViewport: isWhole });
    fs.writeFileSync(file, Buffer.from(data, "base64"));
  }
}

/** Starts Chromium with a profile of its own, runs `work` with a maker of tabs, and ends it. */
async function withBrowser(work) {
  const profile = fs.mkdtempSync(path.join(os.tmpdir(), "chromium-"));
  const browser = spawn("chromium", [
    "--headless=new", "--no-sandbox", "--disable-gpu", "--no-first-run", "--disable-extensions",
    "--disable-background-networking", "--disable-component-update",
    // a tab that isn't seen would get little of a busy machine's time
    "--disable-renderer-backgrounding", "--disable-backgrounding-occluded-windows",
    "--remote-debugging-port=0", `--user-data-dir=${profile}`, "about:blank",
  ], { stdio: ["ignore", "ignore", "pipe"] });
  try {
    const connection = new Connection(await socketOf(browser));
    return await work(async () => {
      const { targetId } = await connection.send("Target.createTarget", { url: "about:blank" });
      const { sessionId } = await connection.send("Target.attachToTarget",
        { targetId, flatten: true });
      const tab = new Tab(connection, sessionId);
      await tab.begin();
      return tab;
    });
  } finally {
    const ended = new Promise((resolve) => browser.once("exit", resolve));
    browser.kill();
    await ended;
    await remove(profile);
  }
}

/** Removes the profile; the browser's helpers may still write to it for a moment. */
async function remove(profile) {
  for (let tries = 0; tries < 50; tries += 1) {
    try {
      fs.rmSync(profile, { recursive: true, force: true });
      return;
    } catch {
      await new Promise((resolve) => setTimeout(resolve, 100));
    }
  }
}

/** The socket whose address the browser writes to its standard error. */
function socketOf(browser) {
  return new Promise((resolve, reject) => {
    let written = "";
    browser.once("error", reject);
    browser.once("exit", () => reject(new Error(`chromium ended: ${written}`)));
    browser.stderr.on("data", (piece) => {
      written += piece;
      const found = /DevTools listening on (ws:\S+)/.exec(written);
      if (!found) return;
      browser.stderr.removeAllListeners("data");
      browser.stderr.resume();
      const socket = new WebSocket(found[1]);
      socket.addEventListener("open", () => resolve(socket));
      socket.addEventListener("error", () => reject(new Error("no connection to chromium")));
    });
  });
}

module.exports = { withBrowser };
