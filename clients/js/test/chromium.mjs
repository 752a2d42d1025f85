// Chromium without a window, driven by its DevTools protocol.

import { spawn, spawnSync } from "node:child_process";
import { once } from "node:events";
import { createInterface } from "node:readline";
import { PATIENCE, WebSocket, scratch } from "./support.mjs";

const NAMES = [process.env.CHROMIUM, "chromium", "chromium-browser", "google-chrome"].filter(Boolean);

/** The name of Chromium's program, undefined where there is none. */
export const chromium = NAMES.find((name) => spawnSync(name, ["--version"], { stdio: "ignore" }).status === 0);

/** A browser in processes of its own, which end with the test. */
export class Browser {
  #calls = new Map();
  #last = 0;

  static async start(t) {
    const browser = new Browser();
    t.after(() => browser.kill());
    const child = spawn(chromium, [
      "--headless=new", "--no-sandbox", "--disable-gpu", "--disable-dev-shm-usage", "--no-first-run", "--remote-debugging-port=0",
      `--user-data-dir=${scratch(t)}`, "about:blank",
    ], { detached: true, stdio: ["ignore", "ignore", "pipe"] });
    browser.child = child;
    browser.ended = once(child, "exit");
    browser.socket = new WebSocket(await addressOf(child));
    await new Promise((resolve, reject) => Object.assign(browser.socket, { onopen: resolve, onerror: () => reject(new Error("no DevTools")) }));
    browser.socket.onmessage = ({ data }) => browser.#hear(JSON.parse(data));
    return browser;
  }

  #hear({ id, result, error }) {
    const call = this.#calls.get(id);
    this.#calls.delete(id);
    if (error) call?.reject(new Error(error.message));
    else call?.resolve(result);
  }

  /** Asks DevTools. */
  send(method, params = {}, sessionId = undefined) {
    const id = (this.#last += 1);
    this.socket.send(JSON.stringify({ id, method, params, sessionId }));
    return new Promise((resolve, reject) => this.#calls.set(id, { resolve, reject }));
  }

  /** A page of its own at the address. */
  async open(url) {
    const { targetId } = await this.send("Target.createTarget", { url, newWindow: true, width: 640, height: 620 });
    const { sessionId } = await this.send("Target.attachToTarget", { targetId, flatten: true });
    return new Page(this, sessionId);
  }

  /** Kills all its processes at once, as kill -9 does. */
  async kill() {
    if (this.child === undefined || this.child.exitCode !== null || this.child.signalCode !== null) return;
    process.kill(-this.child.pid, "SIGKILL");
    await this.ended;
  }
}

async function addressOf(child) {
  const timer = setTimeout(() => child.kill("SIGKILL"), PATIENCE);
  for await (const line of createInterface({ input: child.stderr })) {
    const found = /^DevTools listening on (ws:\S+)/.exec(line);
    if (!found) continue;
    clearTimeout(timer);
    child.stderr.resume();
    return found[1];
  }
  throw new Error("Chromium didn't start");
}

/** A page of a browser. */
export class Page {
  constructor(browser, session) {
    this.browser = browser;
    this.session = session;
  }

  /** What the expression is there. */
  async evaluate(expression) {
    const { result, exceptionDetails } = await this.browser.send("Runtime.evaluate", { expression, returnByValue: true, awaitPromise: true }, this.session);
    if (exceptionDetails) throw new Error(exceptionDetails.exception?.description ?? exceptionDetails.text);
    return result.value;
  }

  /** Types the text where the focus is. */
  type(text) {
    return this.browser.send("Input.insertText", { text }, this.session);
  }

  /** The bytes of a PNG of it. */
  async screenshot() {
    const { data } = await this.browser.send("Page.captureScreenshot", { format: "png" }, this.session);
    return Buffer.from(data, "base64");
  }
}
