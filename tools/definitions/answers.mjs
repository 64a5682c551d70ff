// Answers questions about modules by the engine that runs this script: in node (engine.mjs), or in
// a page of a browser (engine.py).
//
// { take }: whether the bytes are taken, and else why. { exporter, importer, index }: whether
// global `index` of the one links with the other. { start, imports, places }: what an instance
// leaves: whether it trapped, its globals, and what stands at the places of each object, or at all.

const bytesOf = hex => Uint8Array.from(hex.match(/../g) ?? [], it => parseInt(it, 16));
const hexOf = bytes => Array.from(bytes, it => it.toString(16).padStart(2, "0")).join("");

function take(hex) {
  try {
    return { taken: true, module: new WebAssembly.Module(bytesOf(hex)) };
  } catch (error) {
    return { taken: false, why: error.message };
  }
}

// Eight functions of another module, which imported tables hold: f0 to f7.
const FUNCTIONS = 8;
const name = k => [2, 0x66, 0x30 + k];
const all = Array.from({ length: FUNCTIONS }, (_, k) => k);
const host = new WebAssembly.Instance(new WebAssembly.Module(Uint8Array.from([
  0, 0x61, 0x73, 0x6d, 1, 0, 0, 0, 1, 4, 1, 0x60, 0, 0, 3, FUNCTIONS + 1, FUNCTIONS, ...all.map(() => 0), 7, 5 * FUNCTIONS + 1, FUNCTIONS,
  ...all.flatMap(k => [...name(k), 0, k]), 10, 3 * FUNCTIONS + 1, FUNCTIONS, ...all.flatMap(() => [2, 0, 11]),
]))).exports;

const MAKERS = {
  i32: ({ number }) => Number(number) | 0,
  i64: ({ number }) => BigInt.asIntN(64, BigInt(number)),
  function: () => () => undefined,
  memory({ least = 1, most = null }) {
    const made = new WebAssembly.Memory({ initial: least, ...(most === null ? {} : { maximum: most }) }), bytes = new Uint8Array(made.buffer);
    for (let i = 0; i < bytes.length; i++) bytes[i] = (i * 7 + 3) % 251;
    return made;
  },
  table({ least = FUNCTIONS, most = null }) {
    const made = new WebAssembly.Table({ element: "anyfunc", initial: least, ...(most === null ? {} : { maximum: most }) });
    all.filter(k => k < least).forEach(k => made.set(k, host[`f${k}`]));
    return made;
  },
};

// A global of 32 or 64 bits without sign, and null for one of another kind, of which a vector cannot be read.
function number(global) {
  let value = null;
  try {
    ({ value } = global);
  } catch {
    return null;
  }
  if (typeof value === "bigint") return BigInt.asUintN(64, value).toString();
  return Number.isInteger(value) && value >= -(2 ** 31) && value < 2 ** 31 ? String(value >>> 0) : null;
}

// A cell as a number: -1 for null, a function of the module by its index, one of the host by its
// number and 100.
function cell(value, exports) {
  if (value === null) return -1;
  const host_ = all.find(k => host[`f${k}`] === value);
  if (host_ !== undefined) return 100 + host_;
  const own = exports && Object.keys(exports).find(key => exports[key] === value);
  return own ? Number(own.slice(1)) : Number(value.name);
}

function contents(object, places, exports) {
  if (!object) return null;
  if (object instanceof WebAssembly.Memory) {
    const bytes = new Uint8Array(object.buffer);
    return { size: bytes.length, at: places === "all" ? hexOf(bytes) : places.map(place => bytes[place]) };
  }
  const get = place => {
    try {
      return object.get(place);
    } catch {
      return object.get(BigInt(place));
    }
  };
  const cells = places === "all" ? Array.from({ length: Number(object.length) }, (_, place) => place) : places;
  return { size: Number(object.length), at: cells.map(place => cell(get(place), exports)) };
}

function start({ start: hex, imports, places }) {
  const { taken, why, module } = take(hex);
  if (!taken) return { taken, why };
  const made = {}, given = {};
  for (const { module: space = "m", name, ...one } of imports) {
    made[space] ??= {};
    made[space][name] = MAKERS[one.kind](one);
    // Objects by the letter of their kind and their number: they can be looked at where there is no instance.
    const letter = { memory: "m", table: "t" }[one.kind];
    if (letter) given[`${letter}${Object.keys(given).filter(key => key.startsWith(letter)).length}`] = made[space][name];
  }
  let exports = null;
  try {
    ({ exports } = new WebAssembly.Instance(module, made));
  } catch (error) {
    if (!(error instanceof WebAssembly.RuntimeError)) return { taken: false, why: error.message };
  }
  // In their order.
  const globals = exports && Object.keys(exports).filter(key => key.startsWith("g")).map(key => number(exports[key]));
  return { taken, trapped: exports === null, globals, objects: places.map(({ name, at }) => contents(given[name] ?? exports?.[name], at, exports)) };
}

function links({ exporter, importer, index }) {
  const one = take(exporter), other = take(importer);
  if (!one.taken || !other.taken) return { taken: false, why: one.why ?? other.why };
  const { exports } = new WebAssembly.Instance(one.module);
  try {
    new WebAssembly.Instance(other.module, { m: { g: exports[`g${index}`] } });
    return { taken: true, linked: true };
  } catch (error) {
    return { taken: true, linked: false, why: error.message };
  }
}

export function answer(question) {
  if (question.start !== undefined) return start(question);
  if (question.exporter !== undefined) return links(question);
  const { taken, why } = take(question.take);
  return { taken, why };
}
