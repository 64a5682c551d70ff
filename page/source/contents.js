// The lists of what is in a module, line by line. Types, values, items, and where bodies end, come
// from the planner's tables; where all else stands, `places.js` found.

const FEW_ITEMS = 6;

class Contents {
  constructor(told) {
    const { places, plan, numbers, module } = told;
    Object.assign(this, { told, places, plan, numbers, module, orders: new Map() });
    this.customSections = placesOf(places.sections, section => section.id === 0);
    if (!told.isPlanned) return;
    this.bodies = new Bodies(told);
    this.items = new Items(told);
    this.names = new Names(told);
  }

  // How many lines each list has. Of a module that is refused it is the sections alone, as far as
  // they were read.
  counts() {
    const { sections, elements, data } = this.places, customs = this.customSections.length;
    if (!this.told.isPlanned) return { sections: sections.length, customs };
    const { imports, exports, entities: { functions, globals } } = this.plan;
    return {
      sections: sections.length, imports: imports.length, exports: exports.length, functions, globals, elements: elements.length, data: data.length, customs,
    };
  }

  // Lines of a list, in order or by size. Each has its index, its bytes in the module, and their number.
  lines(list, isBySize, from, to) {
    const last = Math.min(to, this.counts()[list]), order = isBySize ? this.bySize(list) : null;
    return Array.from({ length: Math.max(0, last - from) }, (_, i) => this.line(list, order ? order[from + i] : from + i));
  }

  line(list, index) {
    const { from, to } = this.bytes[list](index);
    return { index, bytes: { from, to }, size: to - from, ...this[list](index) };
  }

  bySize(list) {
    if (!this.orders.has(list)) {
      const bytes = this.bytes[list], sizes = new Uint32Array(this.counts()[list]);
      for (let i = 0; i < sizes.length; i++) {
        const { from, to, isElsewhere } = bytes(i);
        sizes[i] = isElsewhere ? 0 : to - from;
      }
      this.orders.set(list, largestFirst(sizes));
    }
    return this.orders.get(list);
  }

  // Where the bytes of a line are. What is imported has those of its import, which are no part of its own.
  bytes = {
    sections: index => this.sectionBytes(index),
    customs: index => this.sectionBytes(this.customSections[index]),
    imports: index => this.places.spanOf(2, index),
    exports: index => this.places.spanOf(7, index),
    functions: index => (index < this.plan.entities.imported_functions ? this.ofImport(0, index) : this.bodies.body(index - this.plan.entities.imported_functions)),
    globals: index => (index < this.plan.entities.imported_globals ? this.ofImport(3, index) : this.places.spanOf(6, index - this.plan.entities.imported_globals)),
    elements: index => this.places.spanOf(9, index),
    data: index => ({ from: this.places.data[index].begin, to: this.places.data[index].begin + this.places.data[index].length }),
  };

  // As far as the file goes: the last section of a refused module may say that it is longer.
  sectionBytes(index) {
    const { from, to } = this.places.sections[index];
    return { from, to: Math.min(to, this.module.length) };
  }

  ofImport(kind, index) {
    return { ...this.bytes.imports(this.told.externals.importOf(kind, index)), isElsewhere: true };
  }

  sections(index) {
    const { id, name, title, count, begin, to } = this.places.sections[index];
    return { id, name, title: title === undefined ? null : shortened(title), count, contents: to - begin, isCut: to > this.module.length };
  }

  customs(index) {
    const number = this.customSections[index], { title, begin, to } = this.places.sections[number];
    return { section: number, title: title === undefined ? null : shortened(title), words: customWords(this.module.subarray(begin, to)) };
  }

  imports(index) {
    const it = this.told.externals.import(index);
    return { ...it, entity: it.index, index, from: shortened(it.from), name: shortened(it.name), readable: this.names.readable(it.name) };
  }

  exports(index) {
    const it = this.told.externals.export(index);
    return { ...it, entity: it.index, index, name: shortened(it.name), readable: this.names.readable(it.name) };
  }

  functions(index) {
    const escape = this.plan.escapes.get(index), type = this.plan.functions.get(index);
    return { ...this.names.of(index), type, words: this.told.externals.function(index), escape: escape === NONE ? null : escape, isImported: index < this.plan.entities.imported_functions };
  }

  globals(index) {
    const { externals } = this.told, imported = this.plan.entities.imported_globals;
    const names = [index < imported ? externals.importWords(3, index) : null, externals.exportWords(3, index)].filter(Boolean);
    return { type: externals.global(index), value: index < imported ? null : this.valueOf(index - imported), isImported: index < imported, names };
  }

  // What a defined global begins as: a number, or the words of its expression.
  valueOf(own) {
    const { global_values: known, expressed_globals: expressed, global_expressions: expressions } = this.plan;
    const found = indexIn(known, known.column("global"), own);
    if (found === null) return expressionWords(expressions, indexIn(expressed, i => expressed.get(i), own), this.numbers);
    const { value } = known.get(found);
    if (value.code === this.numbers.i32_const) return Number(value.low) | 0;
    return value.code === this.numbers.i64_const ? BigInt.asIntN(64, BigInt(value.low)) : operatorWords(value, this.numbers);
  }

  elements(index) {
    return { ...this.items.segment(index), items: this.items.words(index, 0, FEW_ITEMS) };
  }

  // Items of an element segment, with the names of functions.
  itemsOf(index, from, to) {
    const told = it => (typeof it === "number" ? { function: it, name: this.names.short(it) } : it === "null" ? { function: null, name: null } : { words: it });
    return this.items.words(index, from, to).map((it, i) => ({ place: from + i, ...told(it) }));
  }

  data(index) {
    const { memory, address, length, begin } = this.places.data[index];
    const place = memory === null ? null : addressAt(this.module, address) ?? this.expressedPlace(index);
    return { memory, place, full: countFull(this.module, begin, begin + length), preview: this.module.slice(begin, begin + Math.min(length, PREVIEW)) };
  }

  // The words of an expression that is a segment's place. Where memories begin as images the tables
  // have no words for it.
  expressedPlace(index) {
    const own = indexIn(this.told.activeData, i => this.told.activeData[i], index), { segments, segment_places: places, images_made } = this.plan;
    return images_made || own >= segments.length ? "an expression" : expressionWords(places, own, this.numbers);
  }
}

// Where the entries of the code section begin. The planner says where the code of each body ends,
// and the length before a body is one number.
class Bodies {
  constructor({ plan: { bodies, code_section_offset: begin }, module, answer: { input } }) {
    const at = bodies.column("code", "at"), length = bodies.column("code", "len");
    this.module = module;
    this.starts = new Float64Array(bodies.length + 1);
    if (!bodies.length) return;
    const cursor = new Cursor(module, begin);
    cursor.count();
    this.starts[0] = cursor.at;
    // Code of no bytes stands nowhere.
    for (let i = 0; i < bodies.length; i++) this.starts[i + 1] = length(i) ? at(i) - input + length(i) : this.entryEnd(this.starts[i]);
  }

  entryEnd(start) {
    const cursor = new Cursor(this.module, start);
    cursor.skip(cursor.count());
    return cursor.at;
  }

  // A body behind its length: its locals and its code.
  body(index) {
    const cursor = new Cursor(this.module, this.starts[index]);
    cursor.count();
    return { from: cursor.at, to: this.starts[index + 1] };
  }
}

// Numbers from 0 up by their sizes: the largest first, and equal ones in order. Size and number are
// one key, so that a million are sorted at once.
function largestFirst(sizes) {
  const { length } = sizes;
  let most = 0;
  for (let i = 0; i < length; i++) if (sizes[i] > most) most = sizes[i];
  if (most * length > Number.MAX_SAFE_INTEGER) return Uint32Array.from(sizes, (_, i) => i).sort((one, other) => sizes[other] - sizes[one] || one - other);
  const keys = new Float64Array(length), order = new Uint32Array(length);
  for (let i = 0; i < length; i++) keys[i] = (most - sizes[i]) * length + i;
  keys.sort();
  for (let i = 0; i < length; i++) order[i] = keys[i] % length;
  return order;
}

// Where a number stands in a list that grows, by halves; or null.
function indexIn({ length }, numberAt, wanted) {
  let low = 0, high = length;
  while (low < high) {
    const middle = (low + high) >> 1;
    if (numberAt(middle) < wanted) low = middle + 1;
    else high = middle;
  }
  return low < length && numberAt(low) === wanted ? low : null;
}
