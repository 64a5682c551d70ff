// A headless Chromium, spoken to over a pipe: no package is needed.
import { spawn } from "node:child_process";
import { mkdtempSync, rmSync } from "node:fs";
import { tmpdir } from "node:os";
import { join } from "node:path";

const SWITCHES = ["--headless", "--no-sandbox", "--disable-gpu", "--hide-scrollbars", "--no-first-run", "--disable-background-networking", "--window-size=1120,900"];

export const pause = ms => new Promise(done => setTimeout(done, ms));

export class Browser {
  constructor(program) {
    this.profile = mkdtempSync(join(tmpdir(), "page-browser-"));
    const words = [...SWITCHES, `--user-data-dir=${this.profile}`, "--remote-debugging-pipe"];
    this.process = spawn(program, words, { stdio: ["ignore", "ignore", "ignore", "pipe", "pipe"] });
    this.waiting = new Map();
    this.last = 0;
    const out = this.process.stdio[4];
    // An answer comes in pieces, up to a zero byte.
    const pieces = [];
    out.setEncoding("utf8");
    out.on("data", text => {
      const parts = text.split("\0");
      for (const part of parts.slice(0, -1)) {
        this.hear(JSON.parse(pieces.splice(0).join("") + part));
      }
      pieces.push(parts.at(-1));
    });
    this.ended = new Promise(done => this.process.on("exit", done));
  }

  hear({ id, result, error }) {
    const call = this.waiting.get(id);
    if (!call) return;
    this.waiting.delete(id);
    if (error) call[1](new Error(error.message));
    else call[0](result);
  }

  send(method, params = {}, sessionId = undefined) {
    return new Promise((done, failed) => {
      this.waiting.set(++this.last, [done, failed]);
      this.process.stdio[3].write(`${JSON.stringify({ id: this.last, method, params, sessionId })}\0`);
    });
  }

  async open(url) {
    const { targetId } = await this.send("Target.createTarget", { url });
    const { sessionId } = await this.send("Target.attachToTarget", { targetId, flatten: true });
    return new Tab(this, sessionId, targetId);
  }

  async close() {
    await Promise.race([this.send("Browser.close").catch(() => {}), pause(3000)]);
    await Promise.race([this.ended, pause(3000)]);
    this.process.kill();
    try {
      rmSync(this.profile, { recursive: true, force: true, maxRetries: 5 });
    } catch {
      // The folder is a temporary one; a browser that is slow to end may still write there.
    }
  }
}

export class Tab {
  constructor(browser, session, target) {
    Object.assign(this, { browser, session, target });
  }

  close() {
    return this.browser.send("Target.closeTarget", { targetId: this.target });
  }

  send(method, params = {}) {
    return this.browser.send(method, params, this.session);
  }

  // The value of an expression in the page, once its promise is kept.
  async value(expression) {
    const { result, exceptionDetails } = await this.send("Runtime.evaluate", { expression, awaitPromise: true, returnByValue: true });
    if (exceptionDetails) throw new Error(exceptionDetails.exception?.description ?? exceptionDetails.text);
    return result.value;
  }

  // Waits until an expression is true.
  async until(expression, seconds = 60) {
    for (let i = 0; i < seconds * 20; i++) {
      if (await this.value(expression)) return;
      await pause(50);
    }
    throw new Error(`not so within ${seconds} s: ${expression}`);
  }

  async press(key, modifiers = 0) {
    const codes = { Tab: 9, Enter: 13, Escape: 27, " ": 32, ArrowDown: 40, ArrowRight: 39 };
    const words = { key, code: key === " " ? "Space" : key, windowsVirtualKeyCode: codes[key], modifiers, ...(key === "Enter" ? { text: "\r" } : key === " " ? { text: " " } : {}) };
    await this.send("Input.dispatchKeyEvent", { type: "keyDown", ...words });
    await this.send("Input.dispatchKeyEvent", { type: "keyUp", ...words });
  }

  async chooseFile(selector, file) {
    const { root } = await this.send("DOM.getDocument", {});
    const { nodeId } = await this.send("DOM.querySelector", { nodeId: root.nodeId, selector });
    await this.send("DOM.setFileInputFiles", { files: [file], nodeId });
  }

  async resize(width, height) {
    await this.send("Emulation.setDeviceMetricsOverride", { width, height, deviceScaleFactor: 1, mobile: false });
  }

  async scheme(name) {
    await this.send("Emulation.setEmulatedMedia", { features: [{ name: "prefers-color-scheme", value: name }] });
  }

  // A picture of what is in view.
  async viewed() {
    const { data } = await this.send("Page.captureScreenshot", {});
    return Buffer.from(data, "base64");
  }

  // A picture of the whole page, or of a part of its height.
  async picture(from = 0, to = Infinity) {
    const { cssContentSize: { width, height } } = await this.send("Page.getLayoutMetrics");
    const clip = { x: 0, y: from, width, height: Math.min(height, to) - from, scale: 1 };
    const { data } = await this.send("Page.captureScreenshot", { captureBeyondViewport: true, clip });
    return Buffer.from(data, "base64");
  }
}
