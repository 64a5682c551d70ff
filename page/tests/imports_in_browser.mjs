// The checks of the section Imports in a browser: its table, its controls, the address, and that
// the page answers while imports are matched.
import { cpus, loadavg } from "node:os";
import { manyExports, manyImports } from "./modules.mjs";
import { NARROW, Opened, STANDS_STILL } from "./opened.mjs";
import { twoModules } from "./two_modules.mjs";

const MANY = 100000;
const CARD = "section[aria-labelledby=title-imports]";

export class ImportChecks extends Opened {
  static all = ["matched", "origins", "keys", "labels", "narrowCard", "unmatched", "name", "links", "refused", "stopped", "many"];

  constructor(parts) {
    super(parts);
    this.two = twoModules(parts.root);
  }

  // Waits until the section says this.
  async says(words, seconds = 60) {
    await this.tab.until(`document.querySelector("${CARD} .result b")?.textContent === ${JSON.stringify(words)}`, seconds);
    await this.tab.until(`document.querySelector("${CARD} tbody") !== null || ${words.endsWith("no imports")}`);
  }

  // The cells of a row of its table, as one text each.
  row(number) {
    return this.tab.value(`Array.from(document.querySelectorAll("${CARD} tbody tr")[${number}].cells, cell => cell.textContent)`);
  }

  click(label) {
    return this.tab.value(`document.querySelector('[aria-label="${label}"]').click()`);
  }

  compare() {
    return this.tab.value("document.querySelector('[name=shown][value=comparison]').click()");
  }

  async matched() {
    await this.give("one", "first.wasm", this.two.first);
    await this.tab.value("document.getElementById('beside').click()");
    await this.give("other", "second.wasm", this.two.second);
    await this.compare();
    await this.says("all 5 imports are matched");
    const rows = [await this.row(0), await this.row(4)], wanted = [
      ["0", "“m”", "“e”", "tag 0, (func (param i32))", "export 4 “e”, tag 0, (func (param i32))"],
      ["4", "“m”", "“f”", "function 0, (func (param i32) (result i32))", "export 0 “f”, function 0, (func (param i32) (result i32))"],
    ];
    this.report("in the browser: the imports of a module are matched by the exports of another", () => JSON.stringify(rows) === JSON.stringify(wanted), rows.map(String));
    const [value, offered] = await this.tab.value("[document.getElementById('module-name').value, Array.from(document.getElementById('module-names').options, it => it.value).join()]");
    this.report("in the browser: the name of their module is filled in and offered", () => value === "m" && offered === "m", [value, offered]);
    await this.shot("imports");
    await this.tab.scheme("dark");
    await this.shot("imports-dark");
    await this.tab.scheme("light");
  }

  async origins() {
    const titleIs = words => `document.getElementById("dialog").open && document.getElementById("dialog-title").textContent === ${JSON.stringify(words)}`;
    await this.click("Show source of import 2");
    await this.tab.until(titleIs("import 2"));
    const said = await this.said("#dialog-body"), wanted = ["“m” “m”", "memory 0", "1 page, at most 2, 64 KiB", "number 2 of the import section (2)", "import section (2), 5 items", 'import 2 "m" "m" memory 0'];
    this.report("in the browser: an import says its index, section and line", () => wanted.every(words => said.includes(words)), [said]);
    await this.tab.value("[...document.querySelectorAll('#dialog-body button')].find(it => it.textContent.startsWith('Show bytes')).click()");
    await this.tab.until("document.querySelector('#dialog-body pre mark') !== null");
    const marked = await this.tab.value("[...document.querySelectorAll('#dialog-body pre mark')].map(it => it.textContent).join(' ')");
    this.report("in the browser: its bytes are shown", () => marked === "01 6D 01 6D 02 01 01 02", [marked]);
    await this.tab.press("Escape");
    await this.tab.until("!document.getElementById('dialog').open");
    await this.click("Show source of export 4");
    await this.tab.until(titleIs("export 4"));
    await this.tab.value("[...document.querySelectorAll('#dialog-body button')].find(it => it.textContent.startsWith('line ')).click()");
    await this.tab.until("document.querySelector('.line.chosen') !== null");
    const line = await this.said(".line.chosen");
    this.report("in the browser: an export leads to its line in the other module’s text", () => line === 'export "e" tag 0', [line]);
    await this.compare();
    await this.says("all 5 imports are matched");
  }

  // Tab reaches all that the section has, and an arrow turns it round.
  async keys() {
    await this.tab.value(`window.reached = new Set(); document.activeElement.blur(); document.addEventListener("focusin", event => reached.add(event.target));
      window.wanted = [...document.querySelectorAll("${CARD} :is(button, input, [tabindex='0'])")].filter(it => it.checkVisibility() && !(it.type === "radio" && !it.checked)); null`);
    const all = await this.tab.value("document.querySelectorAll('button, input, select, [tabindex]').length");
    for (let i = 0; i < all && (await this.tab.value("wanted.some(it => !reached.has(it))")); i++) await this.tab.press("Tab");
    const [count, missed] = await this.tab.value("[wanted.length, wanted.filter(it => !reached.has(it)).map(it => it.outerHTML.slice(0, 100))]");
    this.report(`in the browser: Tab reaches all ${count} controls of the imports`, () => count >= 13 && missed.length === 0, missed);
    await this.tab.value(`document.querySelector("${CARD} [name=importer]:checked").focus()`);
    await this.tab.press("ArrowDown");
    await this.says("first.wasm has no imports");
    const kept = await this.tab.value(`document.activeElement === document.querySelector("${CARD} [name=importer]:checked") && document.activeElement.value === "one"`);
    this.report("in the browser: an arrow turns the direction round, and the keyboard stays there", () => kept);
    await this.tab.press("ArrowDown");
    await this.says("all 5 imports are matched");
  }

  // What a screen reader is told of the section.
  async labels() {
    await this.tab.send("Accessibility.enable");
    const { nodes } = await this.tab.send("Accessibility.getFullAXTree");
    await this.tab.send("Accessibility.disable");
    const told = new Set(nodes.filter(node => !node.ignored).map(node => `${node.role?.value}: ${node.name?.value}`));
    const wanted = [
      "region: Imports", "heading: Imports", "group: Match", "radio: exports of first.wasm for imports of second.wasm", "radio: exports of second.wasm for imports of first.wasm",
      "combobox: The exports are known as module", "region: imports", "table: imports", "button: Show source of import 4", "button: Show source of export 0",
    ];
    const missed = wanted.filter(it => !told.has(it));
    this.report("in the browser: the section, its choice, its field and its table have names", () => missed.length === 0, missed);
    const twice = await this.tab.value("[...document.querySelectorAll('[id]')].map(it => it.id).filter((id, i, all) => all.indexOf(id) !== i)");
    this.report("in the browser: no name of an element stands twice in a comparison", () => twice.length === 0, twice);
    const said = await this.said("#said");
    this.report("in the browser: what is matched is said", () => said === "Imports: all 5 imports are matched", [said]);
  }

  async narrowCard() {
    await this.tab.resize(NARROW, 780);
    const width = await this.tab.value("document.documentElement.scrollWidth");
    this.report(`in the browser: no comparison is wider than a screen of ${NARROW}`, () => width <= NARROW, [String(width)]);
    await this.shot("imports-narrow");
    await this.tab.send("Emulation.clearDeviceMetricsOverride");
  }

  // One import of another type, and one under a name that no export has.
  async unmatched() {
    const { places, second } = this.two, changed = Uint8Array.from(second);
    changed[places.MEMORY_MIN] = 2;
    changed[places.GLOBAL_NAME] = 0x7a;
    await this.give("other", "changed.wasm", changed);
    await this.says("3 of 5 imports are matched; import 1 is missing");
    const [missing, small] = [await this.row(1), await this.row(2)];
    this.report("in the browser: a missing import is told", () => missing[2] === "“z”" && missing[4] === "missing", missing);
    this.report("in the browser: a rule that is broken is told, with both types", () => small[3] === "memory 0, 2 pages, at most 2, 128 KiB" && small[4] === "the memory is too small: export 2 “m”, memory 0, 1 page, at most 2, 64 KiB", small);
    await this.shot("imports-unmatched");
    await this.give("other", "second.wasm", second);
    await this.says("all 5 imports are matched");
  }

  async name() {
    await this.tab.value("document.getElementById('module-name').select()");
    await this.tab.send("Input.insertText", { text: "n" });
    await this.tab.press("Enter");
    await this.says("0 of 5 imports are matched; import 0 is missing");
    const words = new URLSearchParams((await this.tab.value("location.hash")).slice(1));
    this.report("in the browser: another name is matched, and the address keeps it and the direction", () => words.get("as") === "n" && words.get("importer") === "other", [String(words)]);
    await this.tab.value("document.getElementById('options').elements.cow.click()");
    await this.tab.until("!Object.values(sides).some(side => side.isPlanning)");
    await this.says("0 of 5 imports are matched; import 0 is missing");
    const value = await this.tab.value("document.getElementById('module-name').value");
    this.report("in the browser: it stays when the options change", () => value === "n", [value]);
  }

  async links() {
    const other = new Opened({ ...this });
    await other.open(`#${new URLSearchParams({ options: "--cow", one: "overlap", other: "linked", importer: "one", as: "env" })}`);
    await other.tab.until(`document.querySelector("${CARD} .result b")?.textContent === "two segments that overlap has no imports"`);
    const told = await other.tab.value("[document.querySelector('[name=importer]:checked').value, document.getElementById('module-name').value, document.querySelector('[name=shown]:checked').value, location.hash]");
    const words = new URLSearchParams(told[3].slice(1));
    this.report("in the browser: an address brings the comparison, its direction and its name", () => told.slice(0, 3).join() === "one,env,comparison" && words.get("importer") === "one" && words.get("as") === "env", told);
    await other.tab.close();
  }

  async refused() {
    await this.give("other", "cut.wasm", this.two.second.subarray(0, 59));
    await this.tab.until(`document.querySelector("${CARD}")?.textContent.includes("is refused")`);
    const said = await this.said(`${CARD} .bad`);
    this.report("in the browser: where a module is refused it is said which, and why", () => said === "cut.wasm is refused: the bytes are no module by the grammar of the format.", [said]);
    await this.give("other", "second.wasm", this.two.second);
    await this.says("all 5 imports are matched");
  }

  async stopped() {
    // The question is asked before it is stopped.
    await this.tab.value(`document.querySelector("${CARD} [name=importer][value=one]").click(); asking.loaded.then(() => null).then(() => document.getElementById("stop").click())`);
    await this.tab.until(`[...document.querySelectorAll("${CARD} button")].some(it => it.textContent === "Match the imports")`);
    await this.tab.value(`[...document.querySelectorAll("${CARD} button")].find(it => it.textContent === "Match the imports").click()`);
    await this.says("first.wasm has no imports");
    this.report("in the browser: matching can be stopped, and begun again", () => true);
    await this.tab.value(`document.querySelector("${CARD} [name=importer][value=other]").click()`);
    await this.says("all 5 imports are matched");
  }

  // The page answers all the time, and shows a part of the table.
  async many() {
    await this.give("one", "exports.wasm", manyExports(MANY));
    await this.tab.value(`window.gaps = []; window.lastTick = performance.now(); setInterval(() => { const now = performance.now(); gaps.push(now - lastTick); lastTick = now; }, 5); null`);
    const begun = performance.now();
    await this.give("other", "imports.wasm", manyImports(MANY + 1));
    const all = (MANY + 1).toLocaleString("en"), met = MANY.toLocaleString("en");
    await this.says(`${met} of ${all} imports are matched; import ${met} is missing`, 180);
    const took = ((performance.now() - begun) / 1000).toFixed(2), gap = await this.tab.value("Math.max(...gaps)");
    const words = `${all} imports are planned, matched and shown after ${took} s; the page stood still for ${gap.toFixed(0)} ms at most`;
    if (gap >= STANDS_STILL && loadavg()[0] > cpus().length) this.leave(`the limit of ${STANDS_STILL} ms, since the machine has other work (${words})`);
    else this.report(`in the browser: ${words}`, () => gap < STANDS_STILL);
    await this.tab.value(`[...document.querySelectorAll("${CARD} button")].find(it => it.textContent === "show import ${met}").click()`);
    await this.tab.until(`document.querySelectorAll("${CARD} tbody tr").length === 1`);
    const last = await this.row(0);
    this.report("in the browser: the table has parts, and shows the import that is missing", () => last[0] === met && last[4] === "missing", last);
    await this.shot("imports-many");
  }
}
