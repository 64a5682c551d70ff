// The checks of refusals that need no browser: where the planner says that they are, and what the
// script makes of it.
import { join } from "node:path";
import { readModules, spotOf } from "./cases.mjs";
import { listedModule } from "./listed_module.mjs";
import { HEADER, name, section } from "./modules.mjs";

const NONE = 2 ** 32 - 1;
const END = 0x0b, FUNCTION = [0x60, 0x00, 0x00], MEMORY = section(5, [[0x01, 0x00, 0x01]]), BODY = section(10, [[0x01, 0x02, 0x00, END]]);
const made = (...sections) => Buffer.concat([Buffer.from(HEADER), ...sections]);

// A module for each rule, which breaks it: in which section, in which entry there, and at which
// byte that begins, counted here.
export const BROKEN = [
  { rule: 1, section: 1, entry: 1, byte: 19, bytes: made(section(1, [[0x02, 0x4e, 0x02], FUNCTION, FUNCTION, [0x60, 0x01, 0x63, 0x05, 0x00]])) },
  { rule: 2, section: 3, entry: 0, byte: 16, bytes: made(section(1, [[0x01, 0x5f, 0x00]]), section(3, [[0x01, 0x00]]), BODY) },
  { rule: 3, section: 12, entry: 0, byte: 10, bytes: made(section(12, [[0x02]])) },
  { rule: 4, section: 2, entry: 1, byte: 16, bytes: made(section(2, [[0x02], name(""), name(""), [0x03, 0x7f, 0x00], name(""), name(""), [0x02, 0x01, 0x09, 0x03]])) },
  { rule: 5, section: 4, entry: 0, byte: 17, bytes: made(section(1, [[0x01], FUNCTION]), section(4, [[0x01, 0x64, 0x00, 0x00, 0x01]])) },
  { rule: 6, section: 6, entry: 1, byte: 16, bytes: made(section(6, [[0x02], [0x7f, 0x00, 0x41, 0x00, END], [0x7f, 0x00, 0x42, 0x00, END]])) },
  { rule: 7, section: 7, entry: 1, byte: 20, bytes: made(MEMORY, section(7, [[0x02], name("a"), [0x02, 0x00], name("a"), [0x02, 0x00]])) },
  { rule: 8, section: 8, entry: 0, byte: 10, bytes: made(section(8, [[0x05]])) },
  { rule: 9, section: 11, entry: 0, byte: 11, bytes: made(section(11, [[0x01, 0x00, 0x41, 0x00, END, 0x00]])) },
  { rule: 10, section: 4, entry: 0, byte: 11, bytes: made(section(4, [[0x01, 0x63, 0x07, 0x00, 0x00]])) },
];

export function checkRefusals({ told, root, report }) {
  checkCases({ told, root, report });
  checkRules({ told, report });
  checkChanged({ told, report });
}

// The planner's place as a case has it.
function spotIn({ byte, entry, section_entry: inSection }) {
  return { byte, entry: inSection ?? (entry === NONE ? null : entry) };
}

// Each case that says where its bytes are refused, against the planner; and each other that is
// refused has a place too, where there can be one.
function checkCases({ told, root, report }) {
  const wrong = [], unfound = [], same = (one, other) => JSON.stringify(one) === JSON.stringify(other);
  let compared = 0;
  for (const it of readModules(join(root, "crates/plan_cases/data"))) {
    const found = told(it.bytes, it.words), wanted = spotOf(it), { refusal } = found.summary(), words = `${it.file}: ${it.name}`;
    if (it.at !== null) compared++;
    if (wanted !== null && !same(found.located && spotIn(found.located), wanted)) wrong.push(`${words}: ${JSON.stringify(found.located)}, not ${it.at}`);
    if (it.at === "none" && found.planner.locate("place", found.answer.input, found.size) !== null) wrong.push(`${words}: it is read whole`);
    if (refusal && !refusal.place) unfound.push(`${words}: ${refusal.line}`);
  }
  report(`each of ${compared} cases that say where they are refused has that place`, () => compared > 150 && wrong.length === 0, wrong);
  report("each refusal has its place, where there is one", () => unfound.length === 0, unfound);
}

// Rules that are broken, with the sections that have them.
function checkRules({ told, report }) {
  const wrong = BROKEN.filter(({ rule, section: id, entry, byte, bytes }) => {
    const it = told(bytes, []), { rule: broken, place } = it.refusal();
    return broken !== rule || place.at !== byte || place.section.id !== id || it.located.section_entry !== entry || !place.sentence.startsWith(`${place.section.name} section`);
  });
  report(`each of ${BROKEN.length} rules has the section, the entry and the byte that break it`, () => wrong.length === 0, wrong.map(({ rule, bytes }) => `rule ${rule}: ${JSON.stringify(told(bytes, []).refusal())}`));
}

// One byte of a module is changed, each in turn: what is refused has a place in the module, and
// sections that follow one another.
function checkChanged({ told, report }) {
  const { bytes } = listedModule(), wrong = [];
  let refused = 0;
  for (let at = 0; at < bytes.length; at++) {
    const changed = Uint8Array.from(bytes);
    changed[at] ^= 0xff;
    const it = told(changed, []), { status, refusal } = it.summary(), sections = it.contents.lines("sections", false, 0, Infinity);
    if (status === "planned") continue;
    refused++;
    const isAfter = sections.every((it, i) => it.bytes.from === (i ? sections[i - 1].bytes.to : HEADER.length) && it.bytes.to <= bytes.length);
    if (!(refusal.place?.at <= bytes.length) || !isAfter) wrong.push(`byte ${at}: ${JSON.stringify(refusal)}`);
  }
  report(`each of ${refused} modules with a byte changed has a place, and the sections that can be walked`, () => refused > 100 && wrong.length === 0, wrong);
}
