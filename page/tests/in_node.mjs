// The checks that need no browser: texts, records, and what the script adds to them.
import { spawnSync } from "node:child_process";
import { readFileSync } from "node:fs";
import { join } from "node:path";
import { difference, optionsOf, readModules } from "./cases.mjs";
import { checkDrawn } from "./drawn_in_node.mjs";
import { checkImports } from "./imports_in_node.mjs";
import { checkLists } from "./lists_in_node.mjs";
import { checkNames } from "./names_in_node.mjs";
import { checkPlaces } from "./places_in_node.mjs";
import { BROKEN, checkRefusals } from "./refusals_in_node.mjs";
import { movedData } from "./modules.mjs";
import { compile, partsOf } from "./page_parts.mjs";

export async function checkInNode({ page, root, program, report }) {
  const parts = partsOf(page), compiled = await compile(parts.planner);
  const told = (bytes, words, name = "module.wasm") => {
    const it = new parts.Told(new parts.Planner(compiled, parts.layout), name, bytes, optionsOf(words));
    it.index();
    return it;
  };
  const textOf = it => Buffer.from(it.answer.text.view);
  const ofProgram = (bytes, words) => spawnSync(program, ["plan", ...words], { input: bytes, maxBuffer: 2 ** 30 });

  const wanted = readFileSync(join(root, "crates/translate_tool/stdout"));
  report("the linked program has the text of the program’s stored run", () => textOf(told(parts.linked, ["--cow", "--lazy-tables"])).equals(wanted));
  checkCases({ told, textOf, ofProgram, root, program, report });

  const own = told(parts.planner, ["--cow", "--lazy-tables"], "planner.wasm");
  report("the planner plans its own module", () => own.isPlanned && own.plan.functions.length > 100 && placesWrong(own).length === 0);
  if (program) report("its own plan has the text of the program", () => ofProgram(parts.planner, ["--cow", "--lazy-tables"]).stdout.equals(textOf(own)));

  checkRecords({ parts, own, report });
  checkHeap({ parts, compiled, report });
  checkComparison({ parts, told, own, report });
  checkImports({ parts, compiled, told, root, report });
  checkLists({ parts, told, root, report });
  checkPlaces({ told, report });
  checkRefusals({ told, root, report });
  checkNames({ parts, report });
  await checkDrawn({ page, root, told, compiled, report });
}

// Each module of plan_cases.
function checkCases({ told, textOf, ofProgram, root, program, report }) {
  const modules = readModules(join(root, "crates/plan_cases/data"));
  const wrong = [], others = [];
  for (const made of modules) {
    const it = told(made.bytes, made.words), text = textOf(it);
    const differs = difference(made, { status: it.status, text: text.toString(), data: place => it.runtime(place).view });
    if (differs) wrong.push(`${made.file}: ${made.name}: ${differs}`);
    if (program) {
      const run = ofProgram(made.bytes, made.words);
      if (run.status !== it.status || !run.stdout.equals(text)) others.push(`${made.file}: ${made.name}`);
    }
    if (it.isPlanned) wrong.push(...placesWrong(it).map(words => `${made.file}: ${made.name}: ${words}`));
  }
  report(`each of the ${modules.length} modules of plan_cases has what its case says`, () => wrong.length === 0, wrong);
  if (program) report(`each of them has the text of ${program}`, () => others.length === 0, others);
}

// Where the script found more or fewer parts than the planner has, or than a section says.
function placesWrong({ places, plan }) {
  const { starts, elements, data } = places, said = id => places.section(id)?.count ?? 0;
  const counts = {
    types: [starts[1], plan.declared.length], imports: [starts[2], plan.imports.length], tables: [starts[4], said(4)], globals: [starts[6], said(6)],
    exports: [starts[7], plan.exports.length], elements: [starts[9], said(9)], "read elements": [elements, said(9)], data: [starts[11], said(11)], "read data": [data, said(11)],
  };
  return Object.entries(counts).filter(([, [found, wanted]]) => found.length !== wanted).map(([what, [found, wanted]]) => `${found.length} ${what}, not ${wanted}`);
}

// Lists against the text, in which each has its lines.
function checkRecords({ parts, own, report }) {
  const { plan, lines } = own, kinds = word => lines.kinds.get(word)?.count ?? 0;
  const counts = { declared: "declared", group: "groups", image: "images", segment: "segments", runtime: "runtime", region: "regions", element: "elements" };
  const wrong = Object.entries(counts).filter(([word, list]) => kinds(word) !== plan[list].length).map(([word, list]) => `${word}: ${kinds(word)} lines, ${plan[list].length} rows`);
  report("the lists of its own plan are as long as its text says", () => wrong.length === 0, wrong);
  const origins = new parts.Origins(own), told = [];
  for (let i = 0; i < plan.regions.length; i++) told.push(origins.of("region", i));
  for (let i = 0; i < plan.types; i++) told.push(origins.of("type", i));
  for (const kind of ["image", "table", "memory"]) told.push(origins.of(kind, 0));
  report("each region and type of it, its image, table and memory has a line of the text", () => told.every(it => it.facts.some(fact => fact.line !== undefined)));
}

// What a run took is free again: a thousand runs in one memory take no more than the first ones.
function checkHeap({ parts, compiled, report }) {
  const planner = new parts.Planner(compiled, parts.layout), options = optionsOf(["--cow", "--lazy-tables"]), size = () => planner.calls.memory.buffer.byteLength;
  const run = bytes => {
    const answer = planner.make(bytes, options);
    for (const record of ["place", "broken_rule", "excess"]) planner.locate(record, answer.input, bytes.length, answer.places.options);
    planner.drop(answer);
  };
  const runs = count => { for (let i = 0; i < count; i++) run([parts.linked, parts.overlap.subarray(0, i % 31), BROKEN[i % BROKEN.length].bytes][i % 3]); };
  runs(10);
  const before = size();
  runs(1000);
  report("a thousand runs in one memory leave it as large as the first ten", () => size() === before, [`${before} bytes, then ${size()}`]);
  checkGrown({ parts, compiled, options, report });
}

// A memory that grows has another buffer, and what was held of the old one is gone.
function checkGrown({ parts, compiled, options, report }) {
  const Growing = class extends parts.Planner {
    locate(...words) {
      this.free(this.room(2 ** 26));
      return super.locate(...words);
    }
  };
  const [{ bytes }] = BROKEN, it = new parts.Told(new Growing(compiled, parts.layout), "", bytes, options);
  it.index();
  report("a refused module is there, though its place let the memory grow", () => bytes.equals(it.bytesOf("module", 0, 0, bytes.length).bytes) && it.contents.counts().sections === 1);
}

function checkComparison({ parts, told, own, report }) {
  const linked = told(parts.linked, ["--cow"]), same = new parts.Comparison(linked, told(parts.linked, ["--cow"])).summary();
  report("a module has all types, images and regions of itself", () => same.onlyOne === 0 && same.onlyOther === 0 && same.images.every(image => image.differing === 0) && same.regions.every(({ one, other }) => String(one) === String(other)));
  checkMoved({ parts, told, report });
  const two = new parts.Comparison(linked, own), words = index => own.typeWords(index).replace(/ trampoline \d+$/, "");
  const rows = two.types(0, two.pairs.length).filter(row => row.one !== null && row.other !== null);
  report("types that two modules share are spelled alike", () => rows.length > 0 && rows.every(row => row.words.replace(/ trampoline \d+$/, "") === words(row.other)));
}

// The same data at another address: by address all of it differs, and from where it begins none.
function checkMoved({ parts, told, report }) {
  const data = Buffer.from("0102030405060708090a", "hex"), changed = Buffer.from(data);
  changed[4] = changed[9] = 0xff;
  const compared = (one, other) => new parts.Comparison(told(one, ["--cow"]), told(other, ["--cow"])).images()[0];
  const moved = compared(movedData(1024, data), movedData(1048576, data)), { differing, begins } = moved.relative;
  report("data that is moved differs by address, and not from where it begins", () => moved.differing === 20 && moved.first === 1024 && differing === 0 && begins.join() === "1024,1048576", [JSON.stringify(moved)]);
  const other = compared(movedData(1024, data), movedData(65536, changed)).relative;
  report("data that is moved and changed differs where it is changed", () => other.differing === 2 && other.first === 4, [JSON.stringify(other)]);
  const same = compared(movedData(1024, data), movedData(1024, changed));
  report("data in place differs by address as from where it begins", () => same.differing === 2 && same.first === 1028 && same.relative.differing === 2 && same.relative.first === 4, [JSON.stringify(same)]);
  const far = compared(movedData(16, data), movedData(20 * 65536 - 10, data));
  report("of data that is far apart only what is written is looked at", () => far.differing === 20 && far.relative.differing === 0, [JSON.stringify(far)]);
  const pairs = new parts.Comparison(told(movedData(1024, data), []), told(movedData(65536, changed), [])).segments(0, 9);
  report("without images data segments are compared from where each begins", () => pairs.length === 1 && pairs[0].differing === 2 && pairs[0].first === 4 && pairs[0].one.place === "1,024" && pairs[0].other.place === "65,536", [JSON.stringify(pairs)]);
  const empty = compared(movedData(1024, data), movedData(1024, Buffer.alloc(0)));
  report("a memory without an image is compared by address alone", () => empty.differing === 10 && empty.relative === null, [JSON.stringify(empty)]);
}
