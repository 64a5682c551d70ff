// What a plan's imports and exports are: names, kinds and types. Types stand in the words of the
// text, sizes in numbers.

const KINDS = ["function", "table", "memory", "global", "tag"];

// A sign that may stand first in a text is a part of a name.
const utf8 = new TextDecoder("utf-8", { ignoreBOM: true });

class Externals {
  constructor(told) {
    const { plan, numbers } = told;
    Object.assign(this, { told, plan, numbers, imports: plan.imports.length, exports: plan.exports.length });
    this.importNames = plan.import_names.view;
    this.exportNames = plan.export_names.view;
  }

  import(number) {
    const { kind, index, from, name } = this.plan.imports.get(number);
    return { number, from: nameIn(this.importNames, from), name: nameIn(this.importNames, name), ...this.entity(kind, index) };
  }

  export(number) {
    const { kind, index, name } = this.plan.exports.get(number);
    return { number, name: nameIn(this.exportNames, name), ...this.entity(kind, index) };
  }

  // What has this index in the index space of its kind, imports first.
  entity(number, index) {
    const kind = this.told.nameOf(KINDS, number);
    return { kind, index, type: this[kind](index) };
  }

  function(index) {
    return this.signature(this.plan.functions.get(index));
  }

  table(index) {
    return tableWords(tableOf(this.plan.tables.get(index), this.numbers));
  }

  memory(index) {
    return memoryWords(memoryOf(this.plan.memories.get(index)));
  }

  global(index) {
    const { value, writable } = this.plan.globals.get(index);
    return `${valueWords(value, this.numbers)}, ${writable ? "variable" : "constant"}`;
  }

  tag(index) {
    return this.signature(this.plan.tags.get(index).signature);
  }

  // An interned type as the text has it, without its number and the type of its calls from outside.
  signature(type) {
    return this.told.typeWords(type).replace(/ trampoline \d+$/, "");
  }

  // The names of modules that imports have, each with how many: those with the most first, and else
  // as they come.
  modules() {
    return (this.known ??= this.countModules());
  }

  countModules() {
    const counts = new Map(), begin = this.plan.imports.column("from", "begin"), len = this.plan.imports.column("from", "len");
    for (let number = 0; number < this.imports; number++) {
      const from = nameIn(this.importNames, { begin: begin(number), len: len(number) });
      counts.set(from, (counts.get(from) ?? 0) + 1);
    }
    return Array.from(counts, ([name, imports]) => ({ name, imports })).sort((one, other) => other.imports - one.imports);
  }

  // The number of the import that gives an entity.
  importOf(kind, index) {
    this.importsOf ??= new Grouped(this.imports, KINDS.length, this.plan.imports.column("kind"));
    return this.importsOf.of(kind)[index];
  }

  importWords(kind, index) {
    const { from, name } = this.import(this.importOf(kind, index));
    return `imported as “${shortened(from)}” “${shortened(name)}”`;
  }

  // How an entity is exported, by the first of its names; or null.
  exportWords(kind, index) {
    this.exportsOf ??= this.firstExports();
    const number = this.exportsOf.get(kind * 2 ** 32 + index);
    return number === undefined ? null : `exported as “${shortened(this.export(number).name)}”`;
  }

  firstExports() {
    const kind = this.plan.exports.column("kind"), index = this.plan.exports.column("index"), first = new Map();
    for (let number = this.exports - 1; number >= 0; number--) first.set(kind(number) * 2 ** 32 + index(number), number);
    return first;
  }

  // The export under a name, or null: each name has one.
  exportNamed(name) {
    this.byName ??= this.namesOfExports();
    return this.byName.get(name) ?? null;
  }

  namesOfExports() {
    const byName = new Map(), begin = this.plan.exports.column("name", "begin"), len = this.plan.exports.column("name", "len");
    for (let number = 0; number < this.exports; number++) byName.set(nameIn(this.exportNames, { begin: begin(number), len: len(number) }), number);
    return byName;
  }
}

// A part of the bytes of all names.
function nameIn(names, { begin, len }) {
  return utf8.decode(names.subarray(begin, begin + len));
}

// A greatest size, or null where there is none.
function memoryOf({ minimum, maximum, page_size_log2, shared, wide, bounded }) {
  return { page: 2 ** page_size_log2, minimum, maximum: bounded !== 0 ? maximum : null, isShared: shared !== 0, isWide: wide !== 0 };
}

function tableOf({ minimum, maximum, element, wide, bounded }, numbers) {
  return { minimum, maximum: bounded !== 0 ? maximum : null, element: valueWords(element, numbers), isWide: wide !== 0 };
}

// A value's type in the words of the text.
function valueWords(value, numbers) {
  if (value.kind !== numbers.ref) return ["i32", "i64", "f32", "f64", "v128", "i8", "i16"].find(name => numbers[name] === value.kind) ?? "?";
  const words = heapWords(value, numbers);
  if (value.nullable && (words === "func" || words === "extern")) return `${words}ref`;
  return value.nullable ? `(ref null ${words})` : `(ref ${words})`;
}

// What a reference is to, in the words of the text. The locals of bodies name types by the type section.
function heapWords({ heap, index }, numbers) {
  const name = Object.keys(numbers).find(it => it.startsWith("heap_") && numbers[it] === heap)?.slice(5) ?? "?";
  if (name === "declared") return `declared ${index}`;
  return name.startsWith("concrete_") ? `${name.slice(9)} (module ${index})` : name.replace("no_", "no");
}
