/** Drives Firefox by WebDriver BiDi. Needs node 20 with --experimental-websocket and Debian's firefox-esr; no package. */
"use strict";
const { spawn } = require("node:child_process");
const fs = require("node:fs");
const os = require("node:os");
const path = require("node:path");

/** What WebDriver calls the keys that have no character. */
const KEYS = {
  Enter: "\uE007", Tab: "\uE004", End: "\uE010", Home: "\uE011", ArrowLeft: "\uE012", ArrowUp: "\uE013",
  ArrowRight: "\uE014", ArrowDown: "\uE015", Delete: "\uE017", Alt: "\uE00A", Control: "\uE009",
  F9: "\uE039",
};

/** One connection to the browser; each command is answered by its number. */
class Connection {
  constructor(socket) {
    this.socket = socket;
    this.waiting = new Map();
    this.listeners = [];
    this.last = 0;
    socket.addEventListener("message", (message) => this.take(JSON.parse(message.data)));
  }

  take(message) {
    const waiting = this.waiting.get(message.id);
    if (!waiting) {
      for (const listener of this.listeners) listener(message);
      return;
    }
    this.waiting.delete(message.id);
    if (message.type === "error") waiting.reject(new Error(`${message.error}: ${message.message}`));
    else waiting.resolve(message.result);
  }

  send(method, params = {}) {
    const id = ++this.last;
    this.socket.send(JSON.stringify({ id, method, params }));
    return new Promise((resolve, reject) => this.waiting.set(id, { resolve, reject }));
  }
}

/** A tab, and what it asked of the network and wrote to its console. */
class Tab {
  constructor(connection, context) {
    this.connection = connection;
    this.context = context;
    this.requests = [];
    this.complaints = [];
    connection.listeners.push(({ method, params }) => {
      if (method === "network.beforeRequestSent") this.requests.push(params.request.url);
      if (method === "log.entryAdded") this.complaints.push(params.text);
    });
  }

  go(url) {
    return this.connection.send("browsingContext.navigate", { context: this.context, url, wait: "complete" });
  }

  /** What a function gives in the page; its arguments and its result are JSON. */
  async ask(work, ...words) {
    const expression = `(async () => JSON.stringify(await (${work})(${words.map((word) =>
      JSON.stringify(word)).join(",")})))()`;
    const answer = await this.connection.send("script.evaluate",
      { expression, target: { context: this.context }, awaitPromise: true });
    if (answer.type === "exception") throw new Error(answer.exceptionDetails.text);
    return answer.result.value === undefined ? undefined : JSON.parse(answer.result.value);
  }

  /** Presses a key, while those of `held` are held down. */
  press(key, ...held) {
    const values = [...held, key].map((one) => KEYS[one] ?? one);
    const actions = [...values.map((value) => ({ type: "keyDown", value })),
      ...values.reverse().map((value) => ({ type: "keyUp", value }))];
    return this.connection.send("input.performActions",
      { context: this.context, actions: [{ type: "key", id: "keys", actions }] });
  }

  /** Presses the mouse at one place, and lets it go at another. */
  drag([x, y], [toX, toY]) {
    const move = (x, y) => ({ type: "pointerMove", x: Math.round(x), y: Math.round(y) });
    const actions = [move(x, y), { type: "pointerDown", button: 0 }, move((x + toX) / 2, (y + toY) / 2), move(toX, toY),
      { type: "pointerUp", button: 0 }];
    return this.connection.send("input.performActions",
      { context: this.context, actions: [{ type: "pointer", id: "mouse", actions }] });
  }

  /** The size of the page's window. */
  screen(width, height) {
    return this.connection.send("browsingContext.setViewport", { context: this.context, viewport: { width, height } });
  }

  reload() {
    return this.connection.send("browsingContext.reload", { context: this.context, wait: "complete" });
  }

  close() {
    return this.connection.send("browsingContext.close", { context: this.context });
  }
}

/** The address of the socket, which the browser writes to its standard error. */
function addressOf(browser) {
  return new Promise((resolve, reject) => {
    let written = "";
    browser.once("error", reject);
    browser.once("exit", () => reject(new Error(`firefox ended: ${written}`)));
    browser.stderr.on("data", (piece) => {
      written += piece;
      const found = /WebDriver BiDi listening on (ws:\S+)/.exec(written);
      if (found) resolve(`${found[1]}/session`);
    });
  });
}

async function connected(address) {
  const socket = new WebSocket(address);
  await new Promise((resolve, reject) => {
    socket.addEventListener("open", resolve);
    socket.addEventListener("error", () => reject(new Error("no connection to firefox")));
  });
  return new Connection(socket);
}

/** Starts Firefox with a profile of its own, runs `work` with a maker of tabs, and ends it. */
async function withFirefox(work) {
  const profile = fs.mkdtempSync(path.join(os.tmpdir(), "firefox-"));
  fs.writeFileSync(path.join(profile, "user.js"),
    'user_pref("browser.shell.checkDefaultBrowser", false);\n'
    + 'user_pref("network.captive-portal-service.enabled", false);\n'
    + 'user_pref("network.connectivity-service.enabled", false);\n');
  const browser = spawn("firefox-esr",
    ["--headless", "--no-remote", "--profile", profile, "--remote-debugging-port", "0"],
    { stdio: ["ignore", "ignore", "pipe"], env: { ...process.env, MOZ_DISABLE_CONTENT_SANDBOX: "1" } });
  try {
    const connection = await connected(await addressOf(browser));
    await connection.send("session.new", { capabilities: {} });
    await connection.send("session.subscribe", { events: ["log.entryAdded", "network.beforeRequestSent"] });
    const newTab = async () => {
      const { context } = await connection.send("browsingContext.create", { type: "tab" });
      return new Tab(connection, context);
    };
    return await work(newTab);
  } finally {
    const ended = new Promise((resolve) => browser.once("exit", resolve));
    browser.kill();
    await ended;
    fs.rmSync(profile, { recursive: true, force: true, maxRetries: 20, retryDelay: 100 });
  }
}

module.exports = { withFirefox };
