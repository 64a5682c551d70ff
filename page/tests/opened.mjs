// A page that is open in a browser, and what its checks ask it.
import { writeFileSync } from "node:fs";
import { join } from "node:path";
import { optionsOf } from "./cases.mjs";

export const NARROW = 360;
// So many milliseconds a page may not answer.
export const STANDS_STILL = 250;

export class Opened {
  constructor(parts) {
    Object.assign(this, parts);
  }

  // All checks of its kind, in order. One that throws has failed, and the next ones come all the same.
  async run() {
    await this.open();
    for (const check of this.constructor.all) {
      try {
        await this[check]();
      } catch (error) {
        this.report(`in the browser: ${check}`, () => false, [String(error.stack ?? error)]);
      }
    }
    await this.tab.close();
  }

  async open(hash = "") {
    this.tab = await this.browser.open(this.url + hash);
    await this.tab.until("document.readyState === 'complete' && typeof asking !== 'undefined' && asking !== null");
    await this.tab.value("asking.loaded.then(() => true)");
    await this.tab.send("DOM.enable");
  }

  async shot(name, isOfView = false) {
    if (this.shots) writeFileSync(join(this.shots, `${name}.png`), isOfView ? await this.tab.viewed() : await this.tab.picture());
  }

  // A picture from the top of one element to the bottom of another.
  async part(first, last) {
    const place = (selector, side) => this.tab.value(`document.querySelector("${selector}").getBoundingClientRect().${side} + scrollY`);
    return this.tab.picture(await place(first, "top"), (await place(last, "bottom")) + 24);
  }

  // Waits until a side has the plan of this name.
  async planned(name, side = "one") {
    await this.tab.until(`sides.${side}?.name === ${JSON.stringify(name)} && sides.${side}?.plan != null && !sides.${side}.isPlanning`);
  }

  text(side = "one") {
    return this.tab.value(`asking.ask("blob", { side: "${side}", of: "text" }).then(blob => blob.text())`);
  }

  // The text’s checksum, where it is too long to be handed over.
  sum(side = "one") {
    return this.tab.value(`asking.ask("blob", { side: "${side}", of: "text" }).then(blob => blob.arrayBuffer()).then(bytes => crypto.subtle.digest("SHA-256", bytes))
      .then(sum => Array.from(new Uint8Array(sum), byte => byte.toString(16).padStart(2, "0")).join(""))`);
  }

  // The text that the same planner gives in node, which was compared with the program’s.
  expected(bytes, words) {
    const told = new this.parts.Told(new this.parts.Planner(this.compiled, this.parts.layout), "", bytes, optionsOf(words));
    return told.answer.text.text;
  }

  // Chooses a file with these bytes for a side, and waits for its plan.
  async give(side, name, bytes) {
    const file = join(this.folder, name);
    writeFileSync(file, bytes);
    await this.tab.chooseFile(`#file-${side}`, file);
    await this.planned(name, side);
  }

  // What stands in an element of the page.
  said(selector) {
    return this.tab.value(`document.querySelector(${JSON.stringify(selector)})?.textContent ?? ""`);
  }
}
