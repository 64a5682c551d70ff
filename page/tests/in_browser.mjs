// The checks in a browser: what the page shows, by mouse, keyboard and address, and that it never
// stands still.
import { mkdtempSync, readFileSync, rmSync, writeFileSync } from "node:fs";
import { spawnSync } from "node:child_process";
import { createHash } from "node:crypto";
import { cpus, loadavg, tmpdir } from "node:os";
import { join } from "node:path";
import { pathToFileURL } from "node:url";
import { Browser } from "./browser.mjs";
import { readModules } from "./cases.mjs";
import { ImportChecks } from "./imports_in_browser.mjs";
import { manySegments } from "./modules.mjs";
import { NARROW, Opened, STANDS_STILL } from "./opened.mjs";
import { compile, partsOf } from "./page_parts.mjs";

const SECONDS = 5;

export async function checkInBrowser({ page, chromium, ...more }) {
  const browser = new Browser(chromium), folder = mkdtempSync(join(tmpdir(), "page-files-"));
  try {
    const parts = partsOf(page), given = { browser, folder, parts, compiled: await compile(parts.planner), url: pathToFileURL(page).href, ...more };
    for (const Checks of [PageChecks, ImportChecks]) await new Checks(given).run();
  } finally {
    await browser.close();
    rmSync(folder, { recursive: true });
  }
}

class PageChecks extends Opened {
  static all = ["examples", "modules", "files", "searching", "dropping", "refusals", "others", "reloading", "address", "dialogs", "lists", "keyboard", "names", "narrow", "colours", "comparison", "twoDropped", "saving", "stopping", "many"];

  async examples() {
    await this.shot("empty");
    const wanted = { linked: ["a small linked program", this.parts.linked], overlap: ["two segments that overlap", this.parts.overlap], planner: ["the planner’s own module", this.parts.planner] };
    for (const [example, [name, bytes]] of Object.entries(wanted)) {
      await this.tab.value(`document.querySelector("[data-side=one] [data-example=${example}]").click()`);
      await this.planned(name);
      const text = await this.text();
      const same = example === "linked" ? text === readFileSync(join(this.root, "crates/translate_tool/stdout"), "utf8") : text === this.expected(bytes, ["--cow", "--lazy-tables"]);
      this.report(`in the browser: ${name} has the text of the program`, () => same);
      await this.tab.until("document.querySelector('.text .line') !== null");
      const shown = await this.tab.value("document.querySelector('.text .line').textContent");
      this.report(`in the browser: its text is shown`, () => shown === text.split("\n")[0]);
      await this.tab.until("document.querySelectorAll('.picture path').length > 0");
      await this.shot(example);
    }
    await this.tab.scheme("dark");
    await this.shot("planner-dark");
    await this.tab.scheme("light");
    await this.tab.resize(1000, 900);
    await this.tab.value("document.getElementById('said').hidden = true");
    if (this.shots) writeFileSync(join(this.shots, "readme.png"), await this.part("#answer", ".bar"));
    await this.tab.value("document.getElementById('said').hidden = false");
    await this.tab.send("Emulation.clearDeviceMetricsOverride");
  }

  // All modules of plan_cases, by the page’s worker.
  async modules() {
    const modules = readModules(join(this.root, "crates/plan_cases/data")), wrong = [];
    for (let from = 0; from < modules.length; from += 100) {
      const some = modules.slice(from, from + 100), given = some.map(({ bytes, words }) => [bytes.toString("base64"), words]);
      const texts = await this.tab.value(`(async () => {
        const texts = [];
        for (const [encoded, words] of ${JSON.stringify(given)}) {
          takeOptionWords(words);
          await asking.ask("open", { side: "one", name: "case", blob: new Blob([bytesOf(encoded)]), options: optionValues() });
          texts.push(await (await asking.ask("blob", { side: "one", of: "text" })).text());
        }
        return texts;
      })()`);
      some.forEach((made, i) => {
        // The page’s own fields hold numbers up to 2^53; an option past that is taken as this.
        const words = made.words.map(word => word.replace("18446744073709551615", String(Number.MAX_SAFE_INTEGER)).replace("9223372036854775808", String(Number.MAX_SAFE_INTEGER)));
        if (texts[i] !== this.expected(made.bytes, words)) wrong.push(`${made.file}: ${made.name}`);
      });
    }
    await this.tab.value(`takeOptionWords(["--cow", "--lazy-tables"])`);
    this.report(`in the browser: each of the ${modules.length} modules of plan_cases has its text`, () => wrong.length === 0, wrong);
  }

  async files() {
    await this.give("one", "given.wasm", this.parts.linked);
    const text = await this.text();
    this.report("in the browser: a chosen file is planned", () => text === this.expected(this.parts.linked, ["--cow", "--lazy-tables"]));
  }

  // Enter in the search box goes from line to line, counts them, and is said where it can be seen.
  async searching() {
    await this.tab.value("document.getElementById('find').focus(); document.getElementById('find').value = 'TABLES'");
    const seen = [];
    for (let turn = 0; turn < 4; turn++) {
      await this.tab.press("Enter");
      await this.tab.until(`document.querySelector("#find ~ span").textContent.startsWith("${(turn % 3) + 1} of 3")`);
      seen.push(await this.tab.value("document.querySelector('.line.chosen').textContent"));
    }
    const keyboard = await this.tab.value("document.activeElement.id");
    this.report("in the browser: Enter finds one line after another, in any case, and the keyboard stays", () => new Set(seen).size === 3 && seen[3] === seen[0] && keyboard === "find", [seen.join(" / "), keyboard]);
    await this.tab.value("document.getElementById('find').value = 'no such words'");
    await this.tab.press("Enter");
    await this.tab.until("document.querySelector('#find ~ span').textContent === 'not found'");
    const line = await this.tab.value(`(() => { const box = document.getElementById("said").getBoundingClientRect(), style = getComputedStyle(document.getElementById("said"));
      return { words: document.getElementById("said").textContent, isSeen: box.width > 100 && box.height > 20 && box.bottom <= innerHeight && style.opacity !== "0" }; })()`);
    this.report("in the browser: what is said can be seen", () => line.isSeen && line.words === "“no such words” is not found", [JSON.stringify(line)]);
    await this.shot("said", true);
  }

  async drop(...files) {
    const data = { items: [], files, dragOperationsMask: 1 };
    for (const type of ["dragEnter", "dragOver", "drop"]) await this.tab.send("Input.dispatchDragEvent", { type, x: 300, y: 300, data });
  }

  async dropping() {
    const file = join(this.folder, "dropped.wasm");
    writeFileSync(file, this.parts.overlap);
    await this.drop(file);
    await this.planned("dropped.wasm");
    const text = await this.text();
    this.report("in the browser: a dropped file is planned", () => text === this.expected(this.parts.overlap, ["--cow", "--lazy-tables"]));
  }

  async refusals() {
    await this.give("one", "limits.wasm", Buffer.from("0061736d01000000050401010903", "hex"));
    const said = await this.said("#answer");
    this.report("in the browser: a refusal says what and where", () => said.includes("rule 4") && said.includes("byte 11 (0xB), in the memory section (5)"), [said]);
    await this.shot("refused");
  }

  // Files that are no core modules: each has a sentence on what it is.
  async others() {
    const files = { "text.wat": Buffer.from("(module)"), "empty.wasm": Buffer.alloc(0), "component.wasm": Buffer.from("0061736d0d000100", "hex"), "left.wasm": Buffer.from("0061736d01000000010200 00".replace(" ", ""), "hex") };
    const wanted = { "text.wat": "looks like text", "empty.wasm": "the file is empty", "component.wasm": "the file is a component", "left.wasm": "in the type section (1): bytes follow the last entry of the section" };
    for (const [name, bytes] of Object.entries(files)) {
      await this.give("one", name, bytes);
      const said = await this.said("#answer");
      this.report(`in the browser: of ${name} it is said what it is`, () => said.includes("Refused") && said.includes(wanted[name]), [said]);
    }
  }

  // After the page is loaded anew, it asks for the file again.
  async reloading() {
    await this.give("one", "again.wasm", this.parts.linked);
    await this.tab.send("Page.reload");
    await this.tab.until("document.readyState === 'complete' && typeof asking !== 'undefined' && asking !== null && sides.one === null");
    const said = await this.said("[data-side=one] .again"), isSeen = await this.tab.value("document.querySelector('[data-side=one] .again').checkVisibility()");
    this.report("in the browser: after a reload it asks for the file again", () => isSeen && said.startsWith("Choose again.wasm again"), [said]);
    await this.tab.value("asking.loaded.then(() => true)");
    await this.give("one", "again.wasm", this.parts.linked);
    const isGone = await this.tab.value("!document.querySelector('[data-side=one] .again').checkVisibility()");
    this.report("in the browser: and no more, once it is chosen", () => isGone);
  }

  async address() {
    const words = ["--cow", "--ptr=4", "--gc=null", "--page=8192"], hash = `#${new URLSearchParams({ options: words.join(" "), one: "linked" })}`;
    await this.tab.value(`location.hash = ${JSON.stringify(hash)}`);
    await this.planned("a small linked program");
    await this.tab.until("!document.getElementById('options').elements.lazy_tables.checked");
    await this.tab.until(`sides.one.plan.summary.context !== 220`);
    const text = await this.text(), address = await this.tab.value("location.hash");
    this.report("in the browser: an address brings its options and its example", () => text === this.expected(this.parts.linked, words) && new URLSearchParams(address.slice(1)).get("options") === words.join(" "), [address]);
    await this.tab.value(`document.getElementById("options").elements.pointer.value = "8"; document.getElementById("options").elements.pointer.dispatchEvent(new Event("change", { bubbles: true }))`);
    const later = new URLSearchParams((await this.tab.value("location.hash")).slice(1)).get("options");
    this.report("in the browser: a change of options is kept in the address", () => later === "--cow --gc=null --page=8192", [later]);
    await this.tab.value(`location.hash = "#options=--cow+--bogus+--ptr=5&one=linked"`);
    await this.tab.until("!document.getElementById('address-fault').hidden");
    const fault = await this.said("#address-fault");
    this.report("in the browser: an address with unknown options says so", () => fault === "The address has 2 unknown options, which are ignored: --bogus --ptr=5", [fault]);
    await this.tab.value(`location.hash = "#options=--cow+--lazy-tables&one=linked"`);
    await this.tab.until("document.getElementById('address-fault').hidden");
    await this.tab.until("document.getElementById('options').elements.lazy_tables.checked && sides.one.plan?.summary.counts.elements === 0 && !sides.one.isPlanning");
  }

  async dialogs() {
    const titleIs = words => `document.getElementById("dialog").open && document.getElementById("dialog-title").textContent === ${JSON.stringify(words)}`;
    await this.tab.until("document.querySelector('.bar button') !== null");
    await this.tab.value("document.querySelectorAll('.bar button')[3].focus()");
    await this.tab.press("Enter");
    await this.tab.until(titleIs("defined tables"));
    const said = await this.tab.value("document.getElementById('dialog-body').textContent");
    this.report("in the browser: a region says its index, section and line", () => said.includes("number 0 of the tables") && said.includes("table section (4)") && said.includes("region 24 defined tables"), [said]);
    await this.shot("origin", true);
    await this.tab.value("[...document.querySelectorAll('#dialog-body button')].find(it => it.textContent.startsWith('Show bytes')).click()");
    await this.tab.until("document.querySelector('#dialog-body pre mark') !== null");
    const marked = await this.tab.value("[...document.querySelectorAll('#dialog-body pre mark')].map(it => it.textContent).join(' ')");
    this.report("in the browser: its section’s bytes are shown", () => marked === this.parts.linked.subarray(33, 44).toString("hex").toUpperCase().match(/../g).join(" "), [marked]);
    await this.tab.value("document.getElementById('dialog-back').click()");
    await this.tab.until(titleIs("defined tables"));
    await this.tab.press("Escape");
    await this.tab.until("!document.getElementById('dialog').open");
    const back = await this.tab.value("document.activeElement.textContent");
    this.report("in the browser: Escape closes it, and the keyboard is where it was", () => back === "defined tables", [back]);
    await this.tab.value("[...document.querySelectorAll('button')].find(it => it.getAttribute('aria-label') === 'Show source of type 1').click()");
    await this.tab.until(titleIs("type 1"));
    await this.tab.value("[...document.querySelectorAll('#dialog-body button')].find(it => it.textContent === 'line 3').click()");
    await this.tab.until("document.querySelector('.line.chosen') !== null");
    const line = await this.tab.value("document.querySelector('.line.chosen').textContent");
    this.report("in the browser: a type leads to its line", () => line.startsWith("type 1 (func (param i32 i32)"), [line]);
    await this.tab.value("[...document.querySelectorAll('button')].find(it => it.getAttribute('aria-label') === 'Show bytes of image 0').click()");
    await this.tab.until("document.querySelector('#dialog-body pre')?.textContent.includes('hello') === true");
    const first = await this.tab.value("document.querySelector('#dialog-body pre').textContent.split('\\n')[0]");
    this.report("in the browser: an image’s bytes are shown by their addresses", () => first === "00100000  68 65 6C 6C 6F 00 00 00  00 00 00 00 00 00 00 00  hello···········", [first]);
    await this.shot("bytes", true);
    await this.tab.value("closeDialog()");
  }

  // The lists, of which one is shown at a time. On a narrow screen the buttons of a line are in view.
  async lists() {
    const press = words => this.tab.value(`[...document.querySelectorAll(".choices button")].find(it => it.textContent === ${JSON.stringify(words)}).click()`);
    const rows = "[...document.querySelectorAll('#answer table')].find(it => it.caption.textContent === 'functions')?.tBodies[0].rows";
    await press("2 functions");
    await this.tab.until(`${rows}?.length === 2`);
    await press("Largest first");
    await this.tab.until(`${rows}?.[0].cells[1].textContent === "add"`);
    const isFolded = await this.tab.value("!document.getElementById('controls').open && document.getElementById('chosen').checkVisibility()");
    this.report("in the browser: functions are listed by size, and the controls are one line", () => isFolded);
    await this.shot("lists");
    await this.tab.resize(400, 780);
    const place = await this.tab.value(`(() => { const { left, right } = ${rows}[0].querySelector(".more button").getBoundingClientRect(); return [left, right, innerWidth]; })()`);
    this.report("in the browser: on a narrow screen the buttons of a line are in view", () => place[0] >= 0 && place[1] <= place[2], [place.join()]);
    await this.shot("lists-narrow");
    await this.tab.send("Emulation.clearDeviceMetricsOverride");
    await press("11 sections");
  }

  // Tab by Tab, all that can be used is reached, and it shows where the keyboard is.
  async keyboard() {
    await this.tab.value(`document.activeElement.blur(); window.reached = new Set(); window.unseen = [];
      document.addEventListener("focusin", event => {
        reached.add(event.target);
        const seen = event.target.matches(".unseen") ? event.target.parentElement : event.target, style = getComputedStyle(seen);
        if (style.outlineStyle === "none" || parseFloat(style.outlineWidth) < 2) unseen.push(seen.outerHTML.slice(0, 80));
      });`);
    const count = await this.tab.value(`window.wanted = [...document.querySelectorAll("button, input, select, a[href], [tabindex='0']")].filter(it => !it.disabled && it.checkVisibility() && !it.closest("dialog")); wanted.length`);
    for (let i = 0; i < count + 20; i++) await this.tab.press("Tab");
    const missed = await this.tab.value("wanted.filter(it => !reached.has(it)).map(it => it.outerHTML.slice(0, 100))"), unseen = await this.tab.value("unseen");
    this.report(`in the browser: Tab reaches all ${count} controls`, () => missed.length === 0, missed);
    this.report("in the browser: the control that has the keyboard is marked", () => unseen.length === 0, unseen);
  }

  // What a screen reader is told: each control and picture has a name.
  async names() {
    await this.tab.send("Accessibility.enable");
    const { nodes } = await this.tab.send("Accessibility.getFullAXTree");
    await this.tab.send("Accessibility.disable");
    const roles = ["button", "checkbox", "combobox", "MenuListPopup", "spinbutton", "textbox", "searchbox", "radio", "link", "image", "region", "table", "progressbar", "dialog"];
    const used = nodes.filter(node => !node.ignored && roles.includes(node.role?.value)), nameless = used.filter(node => !node.name?.value && node.role.value !== "MenuListPopup");
    this.report(`in the browser: ${used.length} controls, tables and pictures have names`, () => used.length > 30 && nameless.length === 0, nameless.map(node => JSON.stringify(node.role)));
    const twice = await this.tab.value("[...document.querySelectorAll('[id]')].map(it => it.id).filter((id, i, all) => all.indexOf(id) !== i)");
    this.report("in the browser: no name of an element stands twice", () => twice.length === 0, twice);
  }

  async narrow() {
    await this.tab.resize(NARROW, 780);
    const width = await this.tab.value("document.documentElement.scrollWidth");
    this.report(`in the browser: nothing is wider than a screen of ${NARROW}`, () => width <= NARROW, [String(width)]);
    await this.shot("narrow");
    await this.tab.send("Emulation.clearDeviceMetricsOverride");
  }

  // Words stand out from what they stand on: 4.5 to 1, in light and dark.
  async colours() {
    const low = [];
    for (const scheme of ["light", "dark"]) {
      await this.tab.scheme(scheme);
      low.push(...await this.tab.value(`(() => {
        const probe = document.body.appendChild(document.createElement("span"));
        const rgb = colour => { probe.style.color = colour; return getComputedStyle(probe).color.match(/[0-9.]+/g).map(Number); };
        const light = colour => rgb(colour).slice(0, 3).map(it => it / 255).map(it => it <= 0.03928 ? it / 12.92 : ((it + 0.055) / 1.055) ** 2.4).reduce((sum, it, i) => sum + it * [0.2126, 0.7152, 0.0722][i], 0);
        const ratio = (one, other) => { const [a, b] = [light(one), light(other)].sort((x, y) => y - x); return (a + 0.05) / (b + 0.05); };
        const pairs = ["text", "soft", "bad", "good", "image", "segment"].flatMap(word => ["card", "ground"].map(under => ["var(--" + word + ")", "var(--" + under + ")"]));
        pairs.push(["var(--text)", "var(--mark)"], ["var(--text)", "var(--empty)"], ["var(--card)", "var(--image)"], ...COLOURS.map(colour => ["#fff", colour]));
        const low = pairs.filter(([one, other]) => ratio(one, other) < 4.5).map(([one, other]) => "${scheme}: " + one + " on " + other + " " + ratio(one, other).toFixed(2));
        probe.remove();
        return low;
      })()`));
    }
    await this.tab.scheme("light");
    this.report("in the browser: words stand out from what they stand on, light and dark", () => low.length === 0, low);
  }

  async comparison() {
    const changed = Buffer.from(this.parts.linked);
    changed[changed.indexOf("hello")] = 0x48;
    await this.tab.value("document.getElementById('beside').click()");
    await this.give("other", "changed.wasm", changed);
    await this.tab.value("document.querySelector('[name=shown][value=comparison]').click()");
    await this.tab.until("document.getElementById('answer').textContent.includes('Contexts of both')");
    const said = await this.said("#answer");
    this.report("in the browser: two modules are compared", () => said.includes("3 types of a small linked program are types of changed.wasm too") && said.includes("1 byte differs, the first at 1,048,576"), [said.slice(0, 400)]);
    await this.tab.until("document.querySelectorAll('table').length > 3");
    await this.shot("comparison");
    const turn = async () => {
      await this.tab.value("document.getElementById('options').elements.cow.click()");
      await this.tab.until("!Object.values(sides).some(side => side.isPlanning)");
    };
    await turn();
    await this.tab.until("document.getElementById('answer').textContent.includes('No memory of either begins as an image')");
    await turn();
    await this.tab.until("document.getElementById('answer').textContent.includes('1 byte differs')");
    this.report("in the browser: with other options they are compared anew", () => true);
    await this.tab.value("[...document.querySelectorAll('.plain')].find(it => it.textContent === 'defined globals').click()");
    await this.tab.until("document.getElementById('dialog').open");
    await this.tab.value("[...document.querySelectorAll('#dialog-body button')].find(it => it.textContent.startsWith('line ')).click()");
    await this.tab.until("document.querySelector('.line.chosen') !== null");
    const line = await this.tab.value("document.querySelector('.line.chosen').textContent");
    this.report("in the browser: a region that is compared leads to its line", () => line === "region 16 defined globals", [line]);
  }

  async twoDropped() {
    const [one, other] = ["dropped-one.wasm", "dropped-other.wasm"].map(name => join(this.folder, name));
    writeFileSync(one, this.parts.linked);
    writeFileSync(other, this.parts.overlap);
    await this.drop(one, other);
    await this.planned("dropped-one.wasm");
    await this.planned("dropped-other.wasm", "other");
    await this.tab.until("document.getElementById('answer').textContent.includes('Contexts of both')");
    const said = await this.said("#answer");
    this.report("in the browser: two files that are dropped together are compared", () => said.includes("dropped-one.wasm") && said.includes("dropped-other.wasm"), [said.slice(0, 300)]);
    await this.tab.value("takeExample('one', 'linked')");
    await this.planned("a small linked program");
    await this.tab.value("document.querySelector('[name=shown][value=one]').click()");
  }

  async saving() {
    await this.tab.send("Browser.setDownloadBehavior", { behavior: "deny" }).catch(() => {});
    await this.tab.value(`window.copied = null; navigator.clipboard.writeText = async words => { window.copied = words; }; window.saved = null; window.save = async (blob, name) => { window.saved = [await blob.text(), name]; };`);
    await this.tab.value("[...document.querySelectorAll('button')].find(it => it.textContent === 'Copy').click()");
    await this.tab.until("window.copied !== null");
    const copied = await this.tab.value("copied"), wanted = await this.text();
    await this.tab.value("[...document.querySelectorAll('button')].find(it => it.textContent === 'Save').click()");
    await this.tab.until("window.saved !== null");
    const [saved, name] = await this.tab.value("saved");
    this.report("in the browser: the text can be copied and saved", () => copied === wanted && saved === wanted && name === "a small linked program.txt", [name]);
  }

  async stopping() {
    const file = join(this.folder, "stopped.wasm");
    writeFileSync(file, manySegments(400000));
    await this.tab.chooseFile("#file-one", file);
    await this.tab.until("sides.one?.name === 'stopped.wasm' && sides.one.isPlanning");
    await this.tab.value("document.getElementById('stop').click()");
    await this.tab.until("!Object.values(sides).some(side => side?.isPlanning) && sides.one === null && sides.other?.plan != null");
    this.report("in the browser: an opening can be stopped, and the other module stays", () => true);
  }

  // A million segments: the page answers all the time, and shows how far it is. Up to three runs
  // are taken. Where the machine has more work than processors, a page that gets none of them is no
  // fault of its own.
  async many() {
    const file = join(this.folder, "many.wasm"), bytes = manySegments(1000000);
    writeFileSync(file, bytes);
    await this.watch();
    for (const options of [[], ["--cow", "--lazy-tables"]]) {
      let told = null;
      for (let run = 0; run < 3 && !isQuick(told); run++) told = await this.timed(file, options);
      const name = `a million segments, ${(bytes.length / 1e6).toFixed(1)} MB, ${options.join(" ") || "no option"}`, second = ms => (ms / 1000).toFixed(2);
      const words = `shown after ${second(told.took)} s, of which the planner ${second(told.plan)} s; the page stood still for ${told.gap.toFixed(0)} ms at most; memory ${(told.memory / 2 ** 20).toFixed(0)} MiB`;
      const isBusy = loadavg()[0] > cpus().length;
      if (!isQuick(told) && isBusy) this.leave(`the limits of ${SECONDS} s and ${STANDS_STILL} ms, since the machine has other work (${name}: ${words})`);
      else this.report(`in the browser: ${name}: ${words}`, () => isQuick(told), [`limits: ${SECONDS} s, ${STANDS_STILL} ms; progress was ${told.wasShown ? "" : "not "}shown`]);
      if (this.program) {
        const sum = await this.sum(), run = spawnSync(this.program, ["plan", ...options], { input: bytes, maxBuffer: 2 ** 30 });
        this.report("in the browser: its text is that of the program", () => createHash("sha256").update(run.stdout).digest("hex") === sum);
      }
      await this.shot(options.length ? "many-images" : "many");
    }
  }

  // A clock in the page, whose gaps are the times in which the page does not answer.
  watch() {
    return this.tab.value(`window.gaps = []; window.lastTick = performance.now();
      setInterval(() => { const now = performance.now(); gaps.push(now - lastTick); lastTick = now; wasShown ||= !document.getElementById("progress").hidden; }, 5);
      document.getElementById("file-one").addEventListener("change", () => (window.began = performance.now()), { capture: true });
      new MutationObserver(() => { if (document.querySelector("#answer .result")?.textContent.includes("many.wasm")) window.ended ??= performance.now(); }).observe(document.getElementById("answer"), { childList: true, subtree: true });`);
  }

  async timed(file, options) {
    await this.tab.value(`takeOptionWords(${JSON.stringify(options)}); document.getElementById("answer").replaceChildren(); document.getElementById("file-one").value = "";
      window.ended = undefined; window.wasShown = false; gaps.length = 0;`);
    await this.tab.chooseFile("#file-one", file);
    await this.tab.until("window.ended !== undefined", 120);
    return this.tab.value("({ took: ended - began, gap: Math.max(...gaps), plan: sides.one.plan.summary.time, memory: sides.one.plan.summary.memory, wasShown })");
  }
}

const isQuick = told => told !== null && told.took < SECONDS * 1000 && told.gap < STANDS_STILL && told.wasShown;
