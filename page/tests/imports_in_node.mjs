// The checks of imports that need no browser: what the planner answers, and what the script makes of it.
import { readFileSync } from "node:fs";
import { join } from "node:path";
import { optionsOf } from "./cases.mjs";
import { manyExports, manyImports } from "./modules.mjs";
import { twoModules } from "./two_modules.mjs";

const MANY = 100000;
const WORDS = ["--cow", "--lazy-tables"];

export function checkImports({ parts, compiled, told, root, report }) {
  const two = twoModules(root), planner = () => new parts.Planner(compiled, parts.layout);
  const linked = (exporter, importer, name = null) => new parts.Linking(planner(), told(exporter, WORDS, "exporter"), told(importer, WORDS, "importer"), name);
  checkTwoModules({ two, linked, report });
  checkChanges({ two, linked, texts: textsOfRules(root), report });
  checkRefusals({ two, linked, told, report });
  checkPlaces({ parts, two, told, report });
  checkMany({ linked, report });
  checkHeap({ two, planner: planner(), report });
}

const answersOf = linking => linking.rows(0, Infinity).map(({ answer, rule, given }) => [answer, rule, given?.number ?? null]);
const same = (one, other) => JSON.stringify(one) === JSON.stringify(other);
const met = number => ["given", null, number];

function checkTwoModules({ two, linked, report }) {
  const both = linked(two.first, two.second), { met: count, imports, first, name } = both.summary();
  report("all imports of a module are met by another that exports them in another order", () => count === 5 && imports === 5 && first === null && same(answersOf(both), [4, 3, 2, 1, 0].map(met)));
  report("the exports stand under the name that the imports have", () => name === "m" && same(both.summary().modules, [{ name: "m", imports: 5 }]), [name]);
  const types = both.rows(0, 5).map(it => [it.kind, it.type, it.given.kind, it.given.type]), alike = types.filter(([kind, type, givenKind, givenType]) => kind === givenKind && type === givenType);
  report("each import has the kind and the type of its export", () => alike.length === 5 && types[4].join() === "function,(func (param i32) (result i32)),function,(func (param i32) (result i32))", types.map(String));
  const other = answersOf(linked(two.first, two.second, "n"));
  report("under another name all are missing", () => same(other, Array(5).fill(["missing", null, null])), other);
  const back = linked(two.second, two.first).summary();
  report("a module without imports has none that are not met", () => back.status === "planned" && back.imports === 0 && back.first === null && back.name === "", [JSON.stringify(back)]);
}

// The text of each rule, as the crate has it that matches.
function textsOfRules(root) {
  const text = readFileSync(join(root, "crates/import_match/src/error.rt"), "utf8");
  return Object.fromEntries(Array.from(text.matchAll(/#\[error\("(.*)"\)\]\s+(\w+),/g), ([, words, rule]) => [rule, words]));
}

function checkChanges({ two, linked, texts, report }) {
  const wrong = [];
  for (const { place, byte, broken, rule } of two.changes) {
    const second = Uint8Array.from(two.second), wanted = [4, 3, 2, 1, 0].map(met);
    second[place] = byte;
    const found = linked(two.first, second), answers = answersOf(found), { first } = found.summary();
    // An import of another name may name another export, which is told too.
    if (broken !== null) wanted[broken] = rule === null ? ["missing", null, null] : ["mismatch", texts[rule], answers[broken][2]];
    if (!same(answers, wanted) || (first?.number ?? null) !== broken) wrong.push(`byte ${place} is ${byte}: ${JSON.stringify(answers)}`);
  }
  report(`each of ${two.changes.length} changes of a byte has the answer that the tests of linking want`, () => two.changes.length > 15 && wrong.length === 0, wrong);
}

function checkRefusals({ two, linked, told, report }) {
  const cut = bytes => bytes.subarray(0, bytes.length - 1), causes = [[cut(two.first), two.second, "exporter"], [two.first, cut(two.second), "importer"], [cut(two.first), cut(two.second), "exporter"]];
  const wrong = causes.filter(([exporter, importer, which]) => {
    const { status, refused } = linked(exporter, importer, "m").summary(), { kind, rule, what } = told(cut(two.first), WORDS).refusal();
    return status !== "refused" || !same(refused, { name: which, kind, rule, what });
  });
  report("where a module is refused it is said which, the first where both are, and why", () => wrong.length === 0, wrong.map(([, , which]) => which));
}

// Where imports and exports stand in the module and in the text.
function checkPlaces({ parts, two, told, report }) {
  const first = told(two.first, WORDS), second = told(two.second, WORDS), factsOf = (of, kind, number) => new parts.Origins(of).of(kind, number).facts;
  const bytes = (of, facts) => Buffer.from(of.module.subarray(...Object.values(facts.find(it => it.label.match(/^(import|export) /)).bytes))).toString("hex");
  const line = facts => facts.find(it => it.line !== undefined).text;
  const tag = factsOf(second, "import", 0), table = factsOf(second, "import", 3), exported = factsOf(first, "export", 4);
  report("an import has its bytes and its line", () => bytes(second, tag) === "016d01650400" + "00" && line(tag) === 'import 0 "m" "e" tag 0' && bytes(second, table) === "016d01740170010102", [bytes(second, tag), line(tag)]);
  report("an export has its bytes and its line", () => bytes(first, exported) === "01650400" && line(exported) === 'export "e" tag 0', [bytes(first, exported), line(exported)]);
}

function checkMany({ linked, report }) {
  const begun = performance.now(), many = linked(manyExports(MANY), manyImports(MANY + 1)), { met: count, first } = many.summary();
  const last = many.rows(MANY - 1, MANY + 1), took = ((performance.now() - begun) / 1000).toFixed(2);
  report(`${MANY.toLocaleString("en")} imports are met, and the one that is missing is found, in ${took} s with both plans`, () => count === MANY && first.number === MANY && last[0].given.name === last[0].name && last[1].answer === "missing");
}

// What a link took is free again.
function checkHeap({ two, planner, report }) {
  const options = optionsOf(WORDS), size = () => planner.calls.memory.buffer.byteLength;
  const runs = count => { for (let i = 0; i < count; i++) planner.dropLink(planner.link(i % 3 ? two.first : two.first.subarray(0, i % 81), two.second, i % 5 ? "m" : "n", options)); };
  runs(10);
  const before = size();
  runs(1000);
  report("a thousand links in one memory leave it as large as the first ten", () => size() === before, [`${before} bytes, then ${size()}`]);
}
