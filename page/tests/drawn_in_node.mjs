// The checks of what the page draws that need no browser: its script runs in a small document,
// which has elements and no looks.
import { readFileSync } from "node:fs";
import { join } from "node:path";
import { readModules, spotOf } from "./cases.mjs";
import { listedModule, manyFunctions, RUST_NAME } from "./listed_module.mjs";
import { HEADER, movedData, name, section } from "./modules.mjs";
import { openedPage } from "./small_document.mjs";

const pause = ms => new Promise(done => setTimeout(done, ms));

class DrawnPage {
  constructor(page, compiled, more) {
    Object.assign(this, openedPage(readFileSync(page, "utf8"), async () => compiled, more));
    this.answer = this.byId("answer");
  }

  async until(isSo, seconds = 60) {
    for (let i = 0; i < seconds * 50; i++) {
      if (isSo()) return;
      await pause(20);
    }
    throw new Error(`not so within ${seconds} s: ${isSo}`);
  }

  // Takes a module, and waits until its lists are drawn.
  async take(name, bytes, side = "one") {
    this.value("(blob, side, name) => take(side, name, blob)")(new Blob([bytes]), side, name);
    await this.until(() => this.value(`sides.${side}?.plan?.summary.name === ${JSON.stringify(name)} && !sides.${side}.isPlanning`));
    if (side === "one") await this.until(() => this.rows("sections").length > 0);
  }

  // The rows of a table, by its caption: the text of each cell.
  rows(caption, inside = this.answer) {
    const table = inside.querySelectorAll("table").find(it => it.querySelector("caption").textContent === caption);
    return table ? table.querySelector("tbody").children.map(row => row.children.map(cell => cell.textContent)) : [];
  }

  buttons(words, inside = this.answer) {
    return inside.querySelectorAll("button").filter(it => it.textContent === words || it.getAttribute("aria-label") === words);
  }

  async choose(words, caption) {
    this.buttons(words)[0].click();
    await this.until(() => this.rows(caption).length > 0);
    return this.rows(caption);
  }

  async dialog(label) {
    this.buttons(label)[0].click();
    await this.until(() => this.byId("dialog").open && this.byId("dialog-body").children.length > 0 && this.byId("dialog-body").textContent !== "");
    return this.byId("dialog-body");
  }
}

export async function checkDrawn({ page, root, told, compiled, report }) {
  const opened = more => new DrawnPage(page, compiled, more), given = { opened, root, told, report };
  for (const check of [checkFolding, checkLists, checkBytes, checkRefusal, checkPlaces, checkLegend, checkAgain, checkMoved, checkMany]) {
    try {
      await check(given);
    } catch (error) {
      report(`drawn: ${check.name}`, () => false, [String(error.stack ?? error)]);
    }
  }
}

async function checkFolding({ opened, report }) {
  const page = opened(), controls = page.byId("controls"), before = controls.open;
  await page.take("listed.wasm", listedModule().bytes);
  const said = page.byId("chosen").textContent;
  report("drawn: once a module is there, its controls are one line", () => before && !controls.open && said === "listed.wasm, --cow --lazy-tables", [said]);
  controls.open = true;
  page.byId("options").elements.cow.checked = false;
  page.byId("options").onchange();
  await page.until(() => page.value("sides.one.plan?.summary.hasImages === false"));
  report("drawn: where options change they stay open, and the line has the options", () => controls.open && page.byId("chosen").textContent === "listed.wasm, --lazy-tables", [page.byId("chosen").textContent]);
  const helps = page.byId("options").querySelectorAll(".option").filter(it => it.querySelector("p").textContent.length > 20);
  report("drawn: each of the nine options has a line of help", () => helps.length === 9);
}

async function checkLists({ opened, report }) {
  const page = opened();
  await page.take("listed.wasm", listedModule().bytes);
  const rows = await page.choose("4 functions", "functions"), second = ["2", "second", "(func (param i32) (result i32))", "8", "1.0 %", "", "Show bytes"];
  report("drawn: functions have their names, types, sizes and shares", () => rows[1][1] === "core::ptr::drop_in_place" && rows[2].map((it, i) => (i === 4 || i === 5 ? second[i] : it)).join() === second.join() && rows[0][3] === "imported", rows.map(String));
  const raw = page.answer.querySelectorAll("span").filter(it => it.getAttribute("title") === RUST_NAME);
  report("drawn: a readable name has the one of the module with it", () => raw.length === 1);
  const sort = page.buttons("Largest first")[0];
  sort.click();
  await page.until(() => page.rows("functions")[0][0] === "3");
  const order = page.rows("functions").map(([number]) => number).join();
  report("drawn: a click sorts by size, and says that it does", () => order === "3,2,1,0" && sort.getAttribute("aria-pressed") === "true", [order]);
  sort.click();
  await page.until(() => page.rows("functions")[0][0] === "0");
  report("drawn: another click has them in order again", () => sort.getAttribute("aria-pressed") === "false");
  for (const words of ["2 imports", "2 exports", "5 globals", "5 element segments", "2 data segments", "7 custom sections"]) {
    const [, lines, caption] = /^(\d) (.*)$/.exec(words), found = await page.choose(words, caption);
    const whose = page.buttons(words)[0].parentElement.parentElement.querySelectorAll(".soft").some(it => /planner|script/.test(it.textContent));
    report(`drawn: there are ${words}, and it is said whose words they are`, () => found.length === Number(lines) && whose, found.map(String));
  }
  const source = await page.dialog("Show source of “build_id”");
  report("drawn: a line opens its source", () => page.byId("dialog-title").textContent === "custom section “build_id”" && source.textContent.includes("0aff10"), [source.textContent]);
}

async function checkBytes({ opened, report }) {
  const hex = async isNarrow => {
    const page = opened({ isNarrow });
    await page.take("listed.wasm", listedModule().bytes);
    await page.choose("2 data segments", "data segments");
    const body = await page.dialog("Show bytes of data segment 0");
    await page.until(() => body.querySelector("pre") !== null);
    const pre = body.querySelector("pre");
    const textOf = selector => pre.querySelectorAll(selector).map(it => it.textContent).join("");
    return { lines: pre.textContent.split("\n"), pairs: textOf("mark"), letters: textOf(".marked") };
  };
  const { places: { 11: [[from]] }, bytes } = listedModule(), wide = await hex(false), narrow = await hex(true);
  report("drawn: the bytes that are meant are marked, and their letters", () => [wide, narrow].every(it => it.pairs === "616263" && it.letters === "abc"), [JSON.stringify(wide.pairs), wide.letters]);
  const rowOf = (at, length) => Array.from(bytes.subarray(at, at + length), byte => byte.toString(16).toUpperCase().padStart(2, "0"));
  const letters = (at, length) => bytes.subarray(at, at + length).toString("latin1").replace(/[^ -~]/g, "·");
  const at16 = from - (from % 16), at8 = from - (from % 8), address = at => at.toString(16).toUpperCase().padStart(8, "0");
  const wanted = `${address(at16)}  ${rowOf(at16, 8).join(" ")}  ${rowOf(at16 + 8, 8).join(" ")}  ${letters(at16, 16)}`;
  report("drawn: sixteen bytes are in a row", () => wide.lines[0] === wanted, [wide.lines[0], wanted]);
  report("drawn: on a narrow screen eight, with their letters", () => narrow.lines[0] === `${address(at8)}  ${rowOf(at8, 8).join(" ")}  ${letters(at8, 8)}`, narrow.lines.slice(0, 2));
  const lastLines = [wide, narrow].map(it => it.lines.at(-2)), columns = [wide, narrow].map(it => new Set(it.lines.slice(0, -1).map(line => line.length)));
  report("drawn: the letters of a row that is not full stand below the others", () => columns.every((it, i) => [...it].every(length => length <= lastLines[i].length || length === [...it][0])), lastLines);
}

// A module that is refused: what is said of it, and what its button shows.
async function checkRefusal({ opened, report }) {
  const page = opened(), bytes = Buffer.from([...HEADER, 0x09, 0x02, 0x01, 0x08]);
  await page.take("element.wasm", bytes);
  const said = page.answer.textContent, where = "byte 11 (0xB), in the element section (9), entry 0: this is no element segment.";
  report("drawn: a refusal says the byte, the section and the sentence of the planner", () => said.includes(where), [said]);
  const body = await page.dialog("Show bytes");
  await page.until(() => body.querySelector("pre") !== null);
  const marked = body.querySelectorAll("mark").map(it => it.textContent).join("");
  report("drawn: its button shows that byte", () => marked === "08", [marked]);
  await page.take("cut.wasm", Buffer.from([...HEADER, 0x09, 0x0f, 0x01, 0x01, 0x00, 0x01, 0x00, 0x00]));
  const isAtEnd = page.answer.textContent.includes("byte 16 (0x10), in the element section (9): "), end = await page.dialog("Show bytes");
  await page.until(() => page.byId("dialog-title").textContent === "byte 16 of cut.wasm" && end.querySelector("pre") !== null);
  const rows = end.querySelector("pre").textContent;
  report("drawn: where a module ends too early, its last bytes are shown", () => isAtEnd && rows.startsWith("00000000  00 61 73 6D "), [rows]);
  await page.take("custom.wasm", Buffer.concat([Buffer.from(HEADER), section(0, [name("webidl-bindings")])]));
  report("drawn: of a custom section it has the name", () => page.answer.textContent.includes("byte 10 (0xA), in the custom section (0) “webidl-bindings”: custom sections of interface types are not supported."), [page.answer.textContent]);
}

// Each case that says where its bytes are refused has that byte on the page.
async function checkPlaces({ opened, root, told, report }) {
  const card = opened().value("summary => refusalCard({ summary }).textContent"), wrong = [];
  const cases = readModules(join(root, "crates/plan_cases/data")).filter(made => spotOf(made) !== null);
  for (const made of cases) {
    const { byte } = spotOf(made), said = card(told(made.bytes, made.words).summary());
    if (!said.includes(`Where: byte ${byte.toLocaleString("en")} (0x${byte.toString(16).toUpperCase()})`)) wrong.push(`${made.file}: ${made.name}: not byte ${byte}: ${said}`);
  }
  report(`drawn: each of ${cases.length} cases that say where they are refused has that byte`, () => cases.length > 150 && wrong.length === 0, wrong);
}

// Each first word of the description of the text has its line in the page's legend.
async function checkLegend({ opened, root, report }) {
  const format = readFileSync(join(root, "docs/FORMAT.md"), "utf8"), table = format.slice(format.indexOf("## Lines"), format.indexOf("## The image rule"));
  const words = new Set([...table.matchAll(/^\| (.*?) \|/gm)].flatMap(([, cell]) => [...cell.matchAll(/`([a-z-]+) /g)].map(([, word]) => word)));
  const page = opened(), missing = [...words].filter(word => !page.value("LEGEND")[word]), more = Object.keys(page.value("LEGEND")).filter(word => !words.has(word) && word !== "refused");
  report("drawn: the legend has each first word of the text", () => words.size > 30 && missing.length === 0 && more.length === 0, [...missing, ...more]);
  await page.take("listed.wasm", listedModule().bytes);
  const rows = page.rows("what the lines say");
  report("drawn: it has those of this text, with how many lines they have", () => rows.some(([word, lines]) => word === "passive-element" && lines === "2") && rows.every(row => row[2].length > 10), rows.map(String));
}

async function checkAgain({ opened, report }) {
  const page = opened({ stored: { "file-one": "kept.wasm" } }), again = page.root.querySelector(".drop[data-side=one] .again");
  report("drawn: after a reload it is said which file to choose", () => !again.hidden && again.textContent.startsWith("Choose kept.wasm again"), [again.textContent]);
}

async function checkMoved({ opened, report }) {
  const page = opened(), data = Buffer.from("the data of a module");
  await page.take("one.wasm", movedData(1024, data));
  await page.take("other.wasm", movedData(1048576, data), "other");
  page.byId("shown").onchange({ target: { value: "comparison" } });
  await page.until(() => page.rows("images of both").length > 0);
  const [row] = page.rows("images of both");
  await page.until(() => page.rows("data segments of both").length > 0);
  const [segment] = page.rows("data segments of both"), cells = ["20 bytes, memory 0, at 1,024 Show bytes", "20 bytes, memory 0, at 1,048,576 Show bytes", "the same bytes"];
  report("drawn: so are their data segments", () => segment.slice(1).join() === cells.join(), segment);
  report("drawn: data of two modules is compared by address and from where it begins", () => row[3] === "40 bytes differ, the first at 1,024" && row[4] === "the same bytes; data begin at 1,024 and 1,048,576", row);
}

async function checkMany({ opened, report }) {
  const page = opened();
  await page.take("many.wasm", manyFunctions(60000));
  const rows = await page.choose("60,000 functions", "functions");
  page.buttons("Last", page.buttons("60,000 functions")[0].parentElement.parentElement).at(-1).click();
  await page.until(() => page.rows("functions")[0][0] === "59,900");
  report("drawn: of 60,000 functions a hundred are drawn at a time, with separators", () => rows.length === 100 && page.rows("functions").at(-1)[0] === "59,999" && page.rows("functions").at(-1)[3] === "2", [String(rows.length)]);
}
