// The checks of where the script finds the parts of a module: one with each spelling, made by hand,
// whose places are counted from its pieces. Where a number or a constant can have the byte that
// ends an expression it has it, so that what is stepped over wrongly ends too early.
import { HEADER, name, section, unsigned } from "./modules.mjs";

const END = 0x0b;
const of = words => [...name("m"), ...name(words)];
const times = (count, item) => Array(count).fill(item);

const TYPES = [
  [0x60, 0x00, 0x00], // (func)
  [0x4e, 0x02], // a group of two
  [0x50, 0x00, 0x5f, 0x01, 0x7f, 0x01], // a struct that may have subtypes
  [0x4f, 0x01, 0x01, 0x5f, 0x02, 0x7f, 0x01, 0x78, 0x00], // a subtype of it
  [0x5e, 0x7f, 0x01], // an array
  [0x60, 0x01, 0x63, 0x03, 0x02, 0x64, 0x00, 0x70], // (func (param (ref null 3)) (result (ref 0) funcref))
  [0x5d, 0x00], // a continuation
];
const IMPORTS = [
  [...of("f"), 0x00, 0x00],
  [...of("t"), 0x01, 0x70, 0x05, 0x00, 0x0b], // a table with indices of 64 bits and a greatest size
  [...of("s"), 0x02, 0x09, 0x01, END, 0x00], // a memory with pages of one byte
  [...of("g"), 0x03, 0x63, 0x6f, 0x00],
  [...of("e"), 0x04, 0x00, 0x00],
  [...of("h"), 0x00, 0x04],
];
const TABLES = [[0x40, 0x00, 0x70, 0x00, 0x03, 0xd2, 0x00, END], ...times(10, [0x63, 0x00, 0x01, 0x02, 0x0b])];
const MEMORIES = times(11, [0x00, 0x01]);
const GLOBALS = [
  [0x7f, 0x00, 0x41, 0x0b, END],
  [0x7e, 0x01, 0x42, 0x8b, 0x00, 0x42, 0x0b, 0x7c, END],
  [0x7d, 0x00, 0x43, ...times(4, END), END],
  [0x7c, 0x00, 0x44, ...times(8, END), END],
  [0x7b, 0x00, 0xfd, 0x8c, 0x00, ...times(16, END), END],
  [0x63, 0x03, 0x00, 0xd0, 0x03, END],
  [0x63, 0x6e, 0x00, 0x23, 0x00, 0xfb, 0x1a, END], // any.convert_extern of global 0
  [0x64, 0x6c, 0x00, 0x41, 0x0b, 0xfb, 0x1c, END], // ref.i31
  [0x64, 0x01, 0x00, 0x41, 0x0b, 0xfb, 0x00, 0x01, END], // struct.new
  [0x64, 0x01, 0x00, 0xfb, 0x81, 0x00, 0x01, END], // struct.new_default, in a longer spelling
  [0x64, 0x03, 0x00, 0x41, 0x0b, 0x41, 0x0b, 0xfb, 0x06, 0x03, END], // array.new
  [0x64, 0x03, 0x00, 0x41, 0x0b, 0xfb, 0x07, 0x03, END], // array.new_default
  [0x64, 0x03, 0x00, ...times(11, [0x41, 0x0b]).flat(), 0xfb, 0x08, 0x03, 0x0b, END], // array.new_fixed of eleven
];
const EXPORTS = [[...name("a"), 0x00, 0x00], [...name("b"), 0x01, 0x0b], [...name("c"), 0x02, 0x0b], [...name("d"), 0x03, 0x0b], [...name("e"), 0x04, 0x00]];
const ELEMENTS = [
  [0x00, 0x42, 0x0b, END, 0x01, 0x00],
  [0x01, 0x00, 0x02, 0x00, 0x02],
  [0x82, 0x00, 0x01, 0x41, 0x0b, END, 0x00, 0x01, 0x02],
  [0x03, 0x00, 0x01, 0x00],
  [0x04, 0x42, 0x8b, 0x00, END, 0x01, 0xd2, 0x00, END],
  [0x05, 0x63, 0x00, 0x02, 0xd2, 0x00, END, 0xd0, 0x00, END],
  [0x06, 0x0b, 0x41, 0x7f, END, 0x63, 0x00, 0x01, 0xd0, 0x00, END],
  [0x07, 0x70, 0x01, 0xd0, 0x70, END],
];
const DATA = [[0x00, 0x41, 0x0b, END, 0x02, 0x61, 0x62], [0x01, 0x01, 0x63], [0x02, 0x0b, 0x41, 0x80, 0x80, 0x04, END, 0x01, 0x64]];
const BODY = [0x02, 0x00, END];

// The sections, with the number of entries where that is another one than of items.
const SECTIONS = [
  [1, TYPES, 5], [2, IMPORTS], [3, [[0x00]]], [4, TABLES], [5, MEMORIES], [13, [[0x00, 0x00]]], [6, GLOBALS], [7, EXPORTS], [9, ELEMENTS], [12, [], 3], [10, [BODY]], [11, DATA],
];

// The bytes, and where the items of each section begin.
function spelledModule() {
  const made = [Buffer.from(HEADER)], starts = {};
  let end = HEADER.length;
  for (const [id, items, count = items.length] of SECTIONS) {
    const bytes = section(id, [unsigned(count), ...items]);
    made.push(bytes);
    end += bytes.length;
    let at = end - items.flat().length;
    starts[id] = items.map(item => (at += item.length) - item.length);
  }
  return { bytes: Buffer.concat(made), starts };
}

export function checkPlaces({ told, report }) {
  const { bytes, starts } = spelledModule(), it = told(bytes, []);
  const same = (what, found, wanted) => report(what, () => JSON.stringify(found) === JSON.stringify(wanted), [JSON.stringify(found), JSON.stringify(wanted)]);
  // The head of a group is no type.
  starts[1].splice(1, 1);
  same("a module of each spelling is planned", it.status, 0);
  for (const [id, found] of Object.entries(it.places.starts)) same(`each of ${starts[id].length} entries of its section ${id} is where its pieces have it`, found, starts[id]);
  same("its element segments have their tables, addresses and items", it.contents.lines("elements", false, 0, 9).map(line => [line.table, line.place, line.count]), [
    [0, "11", 1], [null, null, 2], [1, "11", 1], [null, null, 1], [0, "11", 1], [null, null, 2], [11, "4,294,967,295", 1], [null, null, 1],
  ]);
  same("and its data segments their memories, addresses and bytes", it.contents.lines("data", false, 0, 9).map(line => [line.memory, line.place, Buffer.from(line.preview).toString()]), [
    [0, "11", "ab"], [null, null, "c"], [11, "65,536", "d"],
  ]);
}
