// The checks of the lists that need no browser. What must come is written down here by the format,
// or counted from the pieces of a module.
import { join } from "node:path";
import { readModules } from "./cases.mjs";
import { listedModule, manyFunctions, namedLocals, CPP_NAME, RUST_NAME } from "./listed_module.mjs";
import { manySegments } from "./modules.mjs";

const WORDS = ["--cow", "--lazy-tables"];
const MANY_FUNCTIONS = 60000, MANY_SEGMENTS = 1000000;

const exact = value => JSON.stringify(value, (_, it) => (typeof it === "bigint" ? `${it}n` : it));
const spanOf = ({ bytes: { from, to } }) => [from, to];

export function checkLists({ parts, told, root, report }) {
  const same = (what, found, wanted) => report(what, () => exact(found) === exact(wanted), [exact(found), exact(wanted)]);
  const linesOf = (it, list, isBySize = false, from = 0, to = Infinity) => it.contents.lines(list, isBySize, from, to);
  checkLinked({ of: told(parts.linked, WORDS), linesOf, same });
  checkListed({ told, linesOf, same });
  checkCustoms({ told, linesOf, same });
  checkSources({ parts, of: told(listedModule().bytes, WORDS), same });
  checkLocals({ parts, told, same });
  checkOrder({ parts, told, linesOf, same, report });
  checkBroken({ told, linesOf, same });
  checkMany({ told, linesOf, report });
  checkCases({ parts, told, root, report });
}

// The committed example: its sections have lengths of five bytes each.
function checkLinked({ of, linesOf, same }) {
  const sections = linesOf(of, "sections");
  same("the sections of the linked program stand where its bytes have them", sections.map(it => [it.id, ...spanOf(it)]), [
    [1, 8, 24], [3, 24, 33], [4, 33, 44], [5, 44, 53], [6, 53, 68], [7, 68, 93], [9, 93, 106], [10, 106, 124], [11, 124, 145], [0, 145, 176], [0, 176, 216],
  ]);
  same("and have so many items and bytes of contents", sections.map(it => [it.count, it.contents]), [[2, 10], [2, 3], [1, 5], [1, 3], [1, 9], [2, 19], [1, 7], [2, 12], [1, 15], [null, 25], [null, 34]]);
  same("its functions have names, types, bodies and escapes", linesOf(of, "functions").map(it => [it.name, it.words, ...spanOf(it), it.size, it.escape]), [
    ["_start", "(func)", 114, 116, 2, 0], ["add", "(func (param i32 i32) (result i32))", 117, 124, 7, 1],
  ]);
  same("its exports have names, kinds, types and places", linesOf(of, "exports").map(it => [it.name, it.kind, it.entity, it.type, ...spanOf(it)]), [
    ["memory", "memory", 0, "17 pages, 1.1 MiB", 75, 84], ["_start", "function", 0, "(func)", 84, 93],
  ]);
  same("its global has type, value and place", linesOf(of, "globals").map(it => [it.type, it.value, ...spanOf(it)]), [["i32, variable", 1048576, 60, 68]]);
  same("its element segment has a place and one item", linesOf(of, "elements").map(it => [it.use, it.table, it.place, it.count, it.items, ...spanOf(it)]), [["part of an image", 0, "1", 1, [1], 100, 106]]);
  same("its data segment has address, bytes and place", linesOf(of, "data").map(it => [it.memory, it.place, it.full, Buffer.from(it.preview).toString("latin1"), ...spanOf(it)]), [[0, "1,048,576", 5, "hello\0", 139, 145]]);
  same("its custom sections have names and words", linesOf(of, "customs").map(it => [it.title, it.words, ...spanOf(it)]), [["name", "names of functions: 2", 145, 176], ["producers", "processed-by: clang 18", 176, 216]]);
}

function checkListed({ told, linesOf, same }) {
  const { bytes, places } = listedModule(), of = told(bytes, WORDS), spans = list => linesOf(of, list).map(spanOf);
  same("a module of some of everything is planned", of.status, 0);
  same("its lists have so many lines", of.contents.counts(), { sections: 17, imports: 2, exports: 2, functions: 4, globals: 5, elements: 5, data: 2, customs: 7 });
  const wanted = { sections: places.sections, imports: places[2], exports: places[7], functions: [places[2][0], ...places[10]], globals: [places[2][1], ...places[6]], elements: places[9], data: places[11] };
  for (const [list, all] of Object.entries(wanted)) same(`each of its ${list} leads to its bytes`, spans(list), all);
  same("its imports have names, kinds and types", linesOf(of, "imports").map(it => [it.from, it.name, it.readable, it.kind, it.type]), [
    ["env", CPP_NAME, "foo::bar(int)", "function", "(func (param i32) (result i32))"], ["env", "base", null, "global", "i32, constant"],
  ]);
  same("its functions have names by import, name section and not at all", linesOf(of, "functions").map(it => [it.name, it.readable, it.from]), [
    [`imported as “env” “${CPP_NAME}”`, null, "import"], [RUST_NAME, "core::ptr::drop_in_place", "name section"], ["second", null, "name section"], [null, null, null],
  ]);
  same("its globals have types and values", linesOf(of, "globals").map(it => [it.type, it.value, it.names]), [
    ["i32, constant", null, ["imported as “env” “base”"]], ["i64, variable", -5n, ["exported as “g”"]], ["i32, constant", "global.get 0; i32.const 3; i32.add", []],
    ["f32, constant", "f32.const 0x3fc00000", []], ["funcref, constant", "ref.func 2", []],
  ]);
  const elements = [
    ["part of an image", 0, "2", 2, [1, 2]], ["passive", null, null, 3, [3, 1, 2]], ["declared", null, null, 1, [3]], ["startup writes it", 0, "global.get 0", 1, [2]], ["passive", null, null, 2, [3, "null"]],
  ];
  const rows = it => linesOf(it, "elements").map(line => [line.use, line.table, line.place, line.count, line.items]);
  same("its element segments have uses, places and items", rows(of), elements);
  elements[0][0] = "startup writes it";
  same("so they have without images of tables, where the planner tells of the first too", rows(told(bytes, [])), elements);
  same("an element segment that is long is shown by parts", of.contents.itemsOf(1, 1, 9).map(it => [it.place, it.function, it.name]), [[1, 1, "core::ptr::drop_in_place"], [2, 2, "second"]]);
  same("its data segments have addresses and sizes", linesOf(of, "data").map(it => [it.memory, it.place, it.size, it.full]), [[0, "16", 3, 3], [null, null, 5, 3]]);
}

// What is usual in custom sections.
function checkCustoms({ told, linesOf, same }) {
  const of = told(listedModule().bytes, WORDS);
  same("custom sections say what is in them", linesOf(of, "customs").map(it => [it.title, it.words]), [
    ["dylink.0", "memory: 1,000 bytes, aligned to 16; table: 2 cells, aligned to 1; needs: libc.so, libm.so"], ["name", "names of functions: 2"],
    ["producers", "language: Rust; processed-by: rustc 1.80.0, clang 18"], ["target_features", "used: bulk-memory, sign-ext; not allowed: shared-mem"],
    ["sourceMappingURL", "source map: https://a.example/m.map"], ["build_id", "build id: 0aff10"], ["odd", "begins with: ·AB"],
  ]);
}

// What opens from a line.
function checkSources({ parts, of, same }) {
  const facts = (kind, index) => Object.fromEntries(new parts.Origins(of).of(kind, index).facts.map(it => [it.label, it.text]));
  const { name, "in the source": source, locals, escapes } = facts("function", 1);
  same("the source of a function has both of its names", [name, source], [`${RUST_NAME}, by the name section`, "core::ptr::drop_in_place"]);
  same("and its locals by their types", [locals, facts("function", 2).locals], ["none", "2 of i32, 1 of f64"]);
  same("and where its body and code are", [facts("function", 2).body, facts("function", 2).code], ["8 bytes, from byte 5 of the contents of its section on", "3 bytes"]);
  same("and whether it escapes", [escapes.startsWith("yes: reference "), facts("function", 0).escapes.startsWith("yes: ")], [true, true]);
  same("the source of a custom section has all that is in it", [facts("custom", 0).needs, facts("custom", 2)["processed-by"]], ["libc.so, libm.so", "rustc 1.80.0, clang 18"]);
  const lines = ["anySection", "function", "global", "element", "datum", "import", "export"].map(kind => new parts.Origins(of).of(kind, 1).facts.some(it => it.bytes));
  same("each line of each list has bytes in its source", lines, Array(7).fill(true));
}

// Names of parameters and locals, by function, where the option keeps them.
function checkLocals({ parts, told, same }) {
  const named = words => [0, 1].map(index => {
    const { facts } = new parts.Origins(told(namedLocals(), words)).of("function", index);
    return ["names of parameters", "names of locals"].map(label => facts.find(it => it.label === label)?.text ?? null);
  });
  same("a function shows the names of its parameters and locals", named(["--native-debug"]), [["0 “first”, 1 “second”", "2 “sum”"], [null, "3 “last”"]]);
  same("and has none without the option", named([]), [[null, null], [null, null]]);
}

// By size: the largest first, equal ones in order.
function checkOrder({ parts, told, linesOf, same, report }) {
  const of = told(listedModule().bytes, WORDS), order = list => linesOf(of, list, true).map(it => it.index);
  same("functions by size: the largest body first, the imported one last", order("functions"), [3, 2, 1, 0]);
  same("data segments by size", order("data"), [1, 0]);
  same("equal sizes stay in order", Array.from(parts.largestFirst(Uint32Array.of(5, 9, 5, 0, 9))), [1, 4, 0, 2, 3]);
  const own = told(parts.planner, WORDS), bodies = linesOf(own, "functions"), code = own.places.section(10), lengths = bodies.reduce((sum, it) => sum + it.size, 0);
  const heads = bodies.reduce((sum, it) => sum + Math.ceil(Math.log2(it.size + 1) / 7), 0);
  report("the bodies of the planner’s own module fill its code section", () => lengths + heads + 2 === code.to - code.begin, [`${lengths} + ${heads} + 2, ${code.to - code.begin}`]);
  const sizes = linesOf(own, "functions", true).map(it => it.size);
  report("by size no function comes behind a smaller one", () => sizes.every((size, i) => i === 0 || size <= sizes[i - 1]));
}

// A module that is refused has the sections that were read.
function checkBroken({ told, linesOf, same }) {
  const { bytes, places } = listedModule(), of = told(bytes.subarray(0, places.sections[4][1] + 1), WORDS);
  const found = it => [it.status, it.contents.counts(), linesOf(it, "sections").map(spanOf)];
  same("a module that is refused has the list of its sections", found(of), [1, { sections: 5, customs: 0 }, places.sections.slice(0, 5)]);
  const [from, to] = places.sections[3], cut = told(bytes.subarray(0, to - 1), WORDS), [last] = linesOf(cut, "sections").slice(3);
  same("a section that is cut off goes to the end of the file", [...found(cut)[2].slice(0, 3), spanOf(last), last.isCut], [...places.sections.slice(0, 3), [from, to - 1], true]);
  const [begin] = places.sections.at(-1), [custom] = linesOf(told(bytes.subarray(0, begin + 4), WORDS), "sections").slice(-1);
  same("a name that is cut off is none", [custom.title, custom.isCut], [null, true]);
  const others = [Buffer.from("(module (memory 1))"), Buffer.from("0061736d0d0001000000", "hex")];
  same("what is no module has no lists", others.map(it => told(it, WORDS).contents.counts()), others.map(() => ({ sections: 0, customs: 0 })));
}

function checkMany({ told, linesOf, report }) {
  const timed = (made, list) => {
    const of = told(made, WORDS), begun = performance.now(), last = of.contents.counts()[list] - 1;
    const [first] = linesOf(of, list, true, 0, 100), [end] = linesOf(of, list, false, last, last + 1);
    return { first, end, took: ((performance.now() - begun) / 1000).toFixed(2) };
  };
  const functions = timed(manyFunctions(MANY_FUNCTIONS), "functions"), segments = timed(manySegments(MANY_SEGMENTS), "data");
  const words = number => number.toLocaleString("en"), last = MANY_SEGMENTS - 1;
  report(`of ${words(MANY_FUNCTIONS)} functions the largest and the last come in ${functions.took} s`, () => functions.first.index === 0 && functions.first.size === 4 && functions.end.index === MANY_FUNCTIONS - 1 && functions.end.size === 2);
  report(`of ${words(MANY_SEGMENTS)} segments the largest and the last come in ${segments.took} s`, () => segments.first.index === 0 && segments.end.index === last && segments.end.place === words(last));
}

// Of each case that is planned: expressions from the tables against the lines of the text, and
// items that the script reads against the planner's.
function checkCases({ parts, told, root, report }) {
  const wrong = [], counts = { words: 0, items: 0 };
  for (const { file, name, bytes, words } of readModules(join(root, "crates/plan_cases/data"))) {
    const it = told(bytes, words.filter(word => word !== "--lazy-tables"));
    if (!it.isPlanned) continue;
    for (const [line, list, index, end] of wordsInText(parts, it)) {
      counts.words++;
      if (!line.endsWith(` ${end}`)) wrong.push(`${file}: ${name}: ${list} ${index}: “${end}”, and the text has “${line}”`);
    }
    for (let i = 0; i < it.places.elements.length; i++) {
      if (!it.contents.items.source(i)) continue;
      const ours = it.contents.items.readOnes(i), theirs = it.contents.items.words(i, 0, Infinity), differ = ours.findIndex((item, k) => item !== theirs[k] && item !== "an expression");
      counts.items += theirs.length;
      if (ours.length !== theirs.length || differ >= 0) wrong.push(`${file}: ${name}: element segment ${i}: ${ours.slice(0, 9)}; ${theirs.slice(0, 9)}`);
    }
  }
  report(`${counts.words} expressions of plan_cases have the words of the text, and ${counts.items} items are read as the planner has them`, () => counts.words > 100 && counts.items > 100 && wrong.length === 0, wrong);
}

// Lines of the text, each with the words that the tables have for its end.
function* wordsInText({ expressionWords }, { plan, lines, numbers, contents }) {
  const lineOf = (kind, index) => lines.line(lines.lineOf(kind, index));
  for (let i = 0; i < plan.expressed_globals.length; i++) yield [lineOf("global-expr", i), "global-expr", i, expressionWords(plan.global_expressions, i, numbers)];
  for (let i = 0; i < plan.elements.length; i++) yield [lineOf("element", i), "element", i, expressionWords(plan.element_places, i, numbers)];
  for (let i = 0; i < plan.segments.length && !plan.images_made; i++) yield [lineOf("segment", i), "segment", i, expressionWords(plan.segment_places, i, numbers)];
  for (let i = 0; i < plan.global_values.length; i++) {
    const value = contents.valueOf(plan.global_values.number(i, "global"));
    yield [lineOf("global", i), "global", i, typeof value === "string" ? value : String(value)];
  }
}
