// A module of some of everything, made by hand, and where its parts stand: each place is counted
// here, from the pieces.
import { HEADER, name, section, unsigned } from "./modules.mjs";

const END = 0x0b, FUNCTION = 0x00, GLOBAL = 0x03;
const list = items => [...unsigned(items.length), ...items.flat()];

export const RUST_NAME = "_ZN4core3ptr13drop_in_place17h0123456789abcdefE";
export const CPP_NAME = "_ZN3foo3barEi";

const TYPES = [[0x60, 0x00, 0x00], [0x60, 0x01, 0x7f, 0x01, 0x7f], [0x60, 0x02, 0x7e, 0x7c, 0x00]];
const IMPORTS = [[...name("env"), ...name(CPP_NAME), FUNCTION, 0x01], [...name("env"), ...name("base"), GLOBAL, 0x7f, 0x00]];
const GLOBALS = [
  [0x7e, 0x01, 0x42, 0x7b, END], // i64.const -5
  [0x7f, 0x00, 0x23, 0x00, 0x41, 0x03, 0x6a, END], // global.get 0, i32.const 3, i32.add
  [0x7d, 0x00, 0x43, 0x00, 0x00, 0xc0, 0x3f, END], // f32.const 1.5
  [0x70, 0x00, 0xd2, 0x02, END], // ref.func 2
];
const EXPORTS = [[...name("run"), FUNCTION, 0x01], [...name("g"), GLOBAL, 0x01]];
const ELEMENTS = [
  [0x00, 0x41, 0x02, END, 0x02, 0x01, 0x02], // table 0 at 2: functions 1 and 2
  [0x01, 0x00, 0x03, 0x03, 0x01, 0x02], // passive: functions 3, 1 and 2
  [0x03, 0x00, 0x01, 0x03], // declared: function 3
  [0x00, 0x23, 0x00, END, 0x01, 0x02], // table 0 at global 0: function 2
  [0x05, 0x70, 0x02, 0xd2, 0x03, END, 0xd0, 0x70, END], // passive: function 3 and null
];
const BODIES = [[0x00, END], [0x02, 0x02, 0x7f, 0x01, 0x7c, 0x20, 0x00, END], [0x00, ...Array(200).fill(0x01), END]];
const DATA = [[0x00, 0x41, 0x10, END, 0x03, 0x61, 0x62, 0x63], [0x01, 0x05, 0x78, 0x79, 0x7a, 0x00, 0x00]];
const NAMES = [[0x01, ...name(RUST_NAME)], [0x02, ...name("second")]];

const part = (id, contents) => [id, ...unsigned(contents.length), ...contents];
const CUSTOMS = {
  "dylink.0": [...part(1, [...unsigned(1000), 0x04, 0x02, 0x00]), ...part(2, list([name("libc.so"), name("libm.so")]))],
  name: part(1, list(NAMES)),
  producers: list([[...name("language"), ...list([[...name("Rust"), ...name("")]])], [...name("processed-by"), ...list([[...name("rustc"), ...name("1.80.0")], [...name("clang"), ...name("18")]])]]),
  target_features: list([[0x2b, ...name("bulk-memory")], [0x2d, ...name("shared-mem")], [0x2b, ...name("sign-ext")]]),
  sourceMappingURL: name("https://a.example/m.map"),
  build_id: [0x03, 0x0a, 0xff, 0x10],
  odd: [0x01, 0x41, 0x42],
};

// The bytes, and of each list the begin and the end of each line. Items stand one behind the other,
// behind their count.
export function listedModule() {
  const known = [[1, TYPES], [2, IMPORTS], [3, [[0x00], [0x01], [0x02]]], [4, [[0x70, 0x00, 0x0a]]], [5, [[0x00, 0x01]]], [6, GLOBALS], [7, EXPORTS], [9, ELEMENTS]];
  const bodies = BODIES.map(body => [...unsigned(body.length), ...body]), made = [Buffer.from(HEADER)], places = { sections: [] };
  let at = HEADER.length;
  const put = (id, items, title = []) => {
    const bytes = section(id, [title, unsigned(items.length), ...items]), ends = [];
    let place = at + bytes.length - items.flat().length;
    for (const item of items) ends.push([place, (place += item.length)]);
    places[id] = ends;
    append(bytes);
  };
  const append = bytes => {
    places.sections.push([at, at + bytes.length]);
    made.push(bytes);
    at += bytes.length;
  };
  for (const [id, items] of known) put(id, items);
  put(10, bodies);
  put(11, DATA);
  for (const [title, contents] of Object.entries(CUSTOMS)) append(section(0, [name(title), contents]));
  // Of a body without its length, and of the bytes of a segment alone.
  places[10] = places[10].map(([, to], i) => [to - BODIES[i].length, to]);
  places[11] = places[11].map(([, to], i) => [to - [3, 5][i], to]);
  return { bytes: Buffer.concat(made), places };
}

// Two functions of two parameters and two locals, whose names are in the name section.
export function namedLocals() {
  const type = [0x60, 0x02, 0x7f, 0x7e, 0x00], body = [0x04, 0x01, 0x02, 0x7c, END];
  const first = [[0x00, ...name("first")], [0x01, ...name("second")], [0x02, ...name("sum")]], second = [[0x03, ...name("last")]];
  const names = part(2, list([[0x00, ...list(first)], [0x01, ...list(second)]]));
  const counted = (id, items) => section(id, [unsigned(items.length), ...items]);
  return Buffer.concat([Buffer.from(HEADER), counted(1, [type]), counted(3, [[0x00], [0x00]]), counted(10, [body, body]), section(0, [name("name"), names])]);
}

// A module of so many functions, of which one in a thousand is longer.
export function manyFunctions(count) {
  const bodies = Buffer.concat(Array.from({ length: count }, (_, i) => Buffer.from(i % 1000 ? [0x02, 0x00, END] : [0x04, 0x00, 0x01, 0x01, END])));
  const types = Buffer.alloc(count);
  return Buffer.concat([Buffer.from([...HEADER, 0x01, 0x04, 0x01, 0x60, 0x00, 0x00]), section(3, [unsigned(count), types]), section(10, [unsigned(count), bodies])]);
}
