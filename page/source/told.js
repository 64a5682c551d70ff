// What a plan says, in rows that the page shows. Numbers and bytes are read from the records; the
// words of types, expressions and names from the text.

const PREVIEW = 24;
const FEW = 12;
// The record that has the place of a refusal, by its kind.
const RECORDS = { malformed: "place", unsupported: "place", invalid: "broken_rule", too_large: "excess", offset_overflow: "excess" };

class Told {
  constructor(planner, name, bytes, options) {
    Object.assign(this, { planner, name, options });
    const begun = performance.now();
    this.answer = planner.make(bytes, options);
    this.time = performance.now() - begun;
    this.numbers = planner.layout.numbers;
    this.status = this.answer.status;
    this.plan = this.answer.plan;
    this.size = bytes.length;
    this.isPlanned = this.status === this.numbers.planned;
    // This may let the planner's memory grow, so it comes before any bytes of that are held.
    this.located = this.status === this.numbers.refused ? this.locate() : null;
    // The planner's own copy of the module: the one that is given to the page's worker is not kept.
    this.module = planner.bytes(this.answer.input, bytes.length);
  }

  // Where the planner says that the module is refused, and why; null where that has no single byte.
  locate() {
    const record = RECORDS[this.causeOf(this.plan).kind];
    return record === undefined ? null : this.planner.locate(record, this.answer.input, this.size, this.answer.places.options);
  }

  // What takes time besides the plan, in steps that can be told.
  index() {
    this.lines = new Lines(this.status <= this.numbers.refused ? this.answer.text.view : new Uint8Array());
    this.places = new Places(this.module, this.isPlanned);
    if (this.isPlanned) this.indexPlan();
    this.contents = new Contents(this);
  }

  indexPlan() {
    this.externals = new Externals(this);
    this.declaredOf = new Grouped(this.plan.declared.length, this.plan.types, i => this.plan.declared.get(i));
    this.functionsOf = new Grouped(this.plan.functions.length, this.plan.types, i => this.plan.functions.get(i));
    const { segments, images, runtime_ranges: ranges } = this.plan, memories = this.plan.memories.length;
    this.segmentsOf = new Grouped(segments.length, memories, segments.column("memory"));
    this.imagesOf = new Grouped(images.length, memories, images.column("memory"));
    this.begins = ranges.column("begin");
    this.ends = ranges.column("end");
    this.activeData = placesOf(this.places.data, segment => segment.memory !== null);
    this.activeElements = placesOf(this.places.elements, element => element.isActive);
    this.groupOf = new Uint32Array(this.plan.types);
    for (let g = 0; g < this.plan.groups.length; g++) this.groupOf.fill(g, this.plan.groups.number(g, "begin"), this.plan.groups.number(g, "end"));
  }

  summary() {
    const { status, name, size, time, plan } = this, memory = this.planner.calls.memory.buffer.byteLength;
    const base = { status: this.nameOf(["planned", "refused", "wrong_options", "no_memory"], status), name, size, time, memory, lines: this.lines.count, kinds: this.lines.told(), lists: this.contents.counts() };
    if (base.status === "refused") return { ...base, refusal: this.refusal() };
    if (!this.isPlanned) return base;
    const regions = plan.regions.slice(0, plan.regions.length).map((region, line) => ({ ...region, name: region.name.text, line })).reverse();
    const counts = Object.fromEntries(Object.entries(plan).filter(([, list]) => list instanceof Rows).map(([key, list]) => [key, list.length]));
    const startup = this.nameOf(["startup_none", "startup_always", "startup_if_memories_need_init"], plan.startup);
    const named = this.lines.lineOf("name", 0), module = named === null ? null : unquoted(this.lines.line(named).slice("name ".length));
    return {
      ...base, counts, regions, startup, module, startupType: plan.startup_type, entities: plan.entities, types: plan.types, start: plan.start === NONE ? null : plan.start,
      hasImages: plan.images_made !== 0, context: plan.context.size, needsObjects: plan.needs_gc_heap !== 0, layouts: this.lines.kinds.get("layout")?.count ?? 0,
    };
  }

  // Which of these names of the header has this number.
  nameOf(names, number) {
    return names.find(name => this.numbers[name] === number) ?? "unknown";
  }

  refusal() {
    return { ...this.causeOf(this.plan), line: this.lines.line(0), place: this.located && this.placeOf(this.located), file: fileOf(this.module) };
  }

  // The place of a refusal, with the name of its section. An input or a context that is too large has none.
  placeOf({ byte, sentence, index, section: id, section_start: start }) {
    const section = id === NONE ? null : { id, name: SECTIONS[id], title: this.places.sections.find(({ from }) => from === start)?.title };
    return { at: index === NONE ? null : byte, sentence, section };
  }

  // Why a record says that a module is refused.
  causeOf({ refusal, refusal_detail: rule }) {
    const kind = this.nameOf(["malformed", "invalid", "unsupported", "too_large", "offset_overflow"], refusal);
    return { kind, rule, what: this.nameOf(["component", "shared", "supertypes", "operator", "exact_import", "interface_types"], rule) };
  }

  runtime(index) {
    return this.plan.runtime.get(index).bytes;
  }

  memories(from, to) {
    return this.plan.memories.slice(from, to).map((memory, i) => {
      const index = from + i, told = memoryOf(memory);
      return {
        index, ...told, isImported: index < this.plan.entities.imported_memories, images: this.imagesOf.count(index), segments: this.segmentsOf.count(index),
        span: this.span(index, told.page, told.minimum), names: this.namesOf("memory", index),
      };
    });
  }

  // Where the data of a memory with known places begin and end.
  span(memory, page, minimum) {
    let from = Infinity, to = 0;
    for (const part of this.parts(memory)) {
      if (part.length === 0) continue;
      from = Math.min(from, part.at);
      to = Math.max(to, part.at + part.length);
    }
    return from < to ? { from, to: Math.min(to, Number(minimum) * page) } : null;
  }

  // The images of a memory, or its segments where it has none, that begin at a known place.
  *parts(memory) {
    const isImage = this.plan.images_made !== 0, list = isImage ? this.plan.images : this.plan.segments, of = isImage ? this.imagesOf : this.segmentsOf;
    const offset = list.column("offset"), data = list.column("runtime"), kind = isImage ? () => this.numbers.at_byte : list.column("kind");
    for (const index of of.of(memory)) {
      if (kind(index) > this.numbers.at_constant) continue;
      const runtime = data(index);
      yield { kind: isImage ? "image" : "segment", index, at: Number(offset(index)), runtime, length: this.runtimeLength(runtime) };
    }
  }

  runtimeLength(index) {
    return this.ends(index) - this.begins(index);
  }

  // How full a part of a memory is, in columns: the share of bytes that are not zero in images, and
  // of bytes that segments write.
  picture(memory, from, to, columns) {
    const full = new Float32Array(columns), covered = new Float32Array(columns), wide = (to - from) / columns;
    for (const part of this.parts(memory)) {
      const begin = Math.max(from, part.at), end = Math.min(to, part.at + part.length);
      if (begin >= end) continue;
      const isImage = part.kind === "image", bytes = isImage ? this.runtime(part.runtime).view : null;
      for (let column = Math.floor((begin - from) / wide); column < columns && from + column * wide < end; column++) {
        const left = Math.max(begin, from + column * wide), right = Math.min(end, from + (column + 1) * wide);
        covered[column] += (right - left) / wide;
        if (isImage) full[column] += countFull(bytes, Math.floor(left - part.at), Math.ceil(right - part.at)) / wide;
      }
    }
    return { full: full.map(share => Math.min(1, share)), covered: covered.map(share => Math.min(1, share)), hasImages: this.plan.images_made !== 0 };
  }

  // The image or the last segment that writes this byte.
  partAt(memory, place) {
    let found = null;
    for (const part of this.parts(memory)) if (part.at <= place && place < part.at + part.length) found = part;
    return found;
  }

  // Images and segments of a memory, in order.
  spans(memory, from, to) {
    const isImage = this.plan.images_made !== 0, of = isImage ? this.imagesOf : this.segmentsOf, list = isImage ? this.plan.images : this.plan.segments;
    return of.slice(memory, from, to).map(index => {
      const row = list.get(index), { view } = this.runtime(row.runtime), kind = isImage ? "image" : "segment";
      return { kind, index, runtime: row.runtime, length: view.length, place: this.placed(row, index), full: countFull(view, 0, view.length), preview: view.slice(0, PREVIEW) };
    });
  }

  // The place of an image or segment: a number, or the words of its expression.
  placed(row, index) {
    if (row.kind === undefined || row.kind <= this.numbers.at_constant) return row.offset;
    const line = this.lines.line(this.lines.lineOf("segment", index) ?? -1);
    return line.split(" at ")[1] ?? "an expression";
  }

  passive(from, to) {
    return this.plan.passive.slice(from, to).map(({ segment, runtime }, i) => {
      const { view } = this.runtime(runtime);
      return { index: from + i, segment, runtime, length: view.length, full: countFull(view, 0, view.length), preview: view.slice(0, PREVIEW) };
    });
  }

  tables(from, to) {
    const { imported_tables } = this.plan.entities;
    return this.plan.tables.slice(from, to).map((table, i) => {
      const index = from + i, own = index - imported_tables, { begin, len } = own < 0 ? { begin: 0, len: 0 } : this.plan.table_images.get(own);
      let full = 0;
      for (let cell = begin; cell < begin + len; cell++) if (this.plan.cells.get(cell) !== NONE) full++;
      return { index, isImported: own < 0, ...tableOf(table, this.numbers), cells: len, full, names: this.namesOf("table", index) };
    });
  }

  // Cells of a table's image: functions by their numbers, null where there is none.
  cells(table, from, to) {
    const { begin, len } = this.plan.table_images.get(table - this.plan.entities.imported_tables);
    const told = (cell, i) => (cell === NONE ? { place: from + i, function: null, name: null } : { place: from + i, function: cell, name: this.contents.names.short(cell) });
    return this.plan.cells.slice(begin + from, begin + Math.min(to, len)).map(told);
  }

  elements(from, to) {
    return this.plan.elements.slice(from, to).map(({ table, kind, offset, count }, i) => {
      const index = from + i, line = this.lines.line(this.lines.lineOf("element", index) ?? -1);
      return { index, table, count, place: kind <= this.numbers.at_constant ? offset : line.split(" at ")[1] ?? "an expression" };
    });
  }

  types(from, to) {
    return Array.from({ length: Math.max(0, Math.min(to, this.plan.types) - from) }, (_, i) => {
      const index = from + i, group = this.groupOf[index];
      return {
        index, group, isFirst: this.plan.groups.number(group, "begin") === index, words: this.typeWords(index),
        declared: this.declaredOf.slice(index, 0, FEW), declaredCount: this.declaredOf.count(index), functions: this.functionsOf.count(index),
      };
    });
  }

  // A type as the text has it, without its number.
  typeWords(index) {
    const line = this.lines.lineOf("type", index);
    return line === null ? "" : this.lines.line(line).replace(/^type \d+ /, "");
  }

  // The name of a function that the module's name section gives.
  functionName(index) {
    const { function_names: names } = this.plan, found = indexIn(names, names.column("function"), index);
    return found === null ? null : utf8.decode(names.get(found).name.view);
  }

  // The names under which an entity is imported and exported: the first few.
  namesOf(kind, index) {
    this.entityNames ??= this.gatherNames();
    return this.entityNames.get(`${kind} ${index}`) ?? [];
  }

  // The names of memories and tables. Those of functions may be a million, so lines are read by parts.
  gatherNames() {
    const names = new Map(), quoted = '("(?:[^"\\\\]|\\\\..)*")';
    const add = (key, words) => {
      const known = names.get(key) ?? names.set(key, []).get(key);
      if (known.length < 3) known.push(words);
    };
    const take = (word, form, said) => {
      const { first, count } = this.lines.kinds.get(word) ?? { first: 0, count: 0 };
      for (let from = first; from < first + count; from += 10000) {
        for (const line of this.lines.slice(from, Math.min(first + count, from + 10000))) {
          const found = form.exec(line);
          if (found) add(`${found.at(-2)} ${found.at(-1)}`, said(...found.slice(1, -2).map(unquoted)));
        }
      }
    };
    take("import", new RegExp(`^import \\d+ ${quoted} ${quoted} (memory|table) (\\d+)$`), (module, name) => `imported as “${module}” “${name}”`);
    take("export", new RegExp(`^export ${quoted} (memory|table) (\\d+)$`), name => `exported as “${name}”`);
    return names;
  }

  // Bytes of runtime data or of the module, and where the next byte that is not zero stands.
  bytesOf(of, index, from, to) {
    const view = of === "module" ? this.module : this.runtime(index).view;
    let next = to;
    while (next < view.length && view[next] === 0) next++;
    return { length: view.length, bytes: view.slice(from, to), next: next < view.length ? next : null };
  }

  blobOf(of, index) {
    const parts = { text: () => this.lines.bytes, runtime: () => this.runtime(index).view, module: () => this.module };
    return new Blob([parts[of]()], { type: of === "text" ? "text/plain;charset=utf-8" : "application/octet-stream" });
  }
}

// What a file is that is certainly no core module, by its first bytes; or null.
function fileOf(bytes) {
  const begins = (...wanted) => wanted.every((byte, at) => bytes[at] === byte);
  if (!bytes.length) return "empty";
  if (begins(0x00, 0x61, 0x73, 0x6d)) return bytes[5] === 0 && bytes[6] === 1 && bytes[7] === 0 ? "component" : null;
  return begins(0x3b, 0x3b) || [0x28, 0x20, 0x09, 0x0a, 0x0d].includes(bytes[0]) ? "text" : "other";
}

// Numbers from 0 up, gathered by what each belongs to, in order.
class Grouped {
  constructor(count, groups, groupOf) {
    this.begins = new Uint32Array(groups + 1);
    const of = new Uint32Array(count);
    for (let i = 0; i < count; i++) {
      of[i] = groupOf(i);
      this.begins[of[i] + 1]++;
    }
    for (let g = 0; g < groups; g++) this.begins[g + 1] += this.begins[g];
    const next = this.begins.slice();
    this.items = new Uint32Array(count);
    for (let i = 0; i < count; i++) this.items[next[of[i]]++] = i;
  }

  count(group) {
    return this.begins[group + 1] - this.begins[group];
  }

  of(group) {
    return this.items.subarray(this.begins[group], this.begins[group + 1]);
  }

  slice(group, from, to) {
    return Array.from(this.of(group).subarray(from, to));
  }
}

// A name of the text as it was: bytes that do not print stand there by two digits.
function unquoted(words) {
  const plain = words.slice(1, -1).replaceAll("%", "%25").replace(/\\([0-9a-f]{2})/g, "%$1");
  try {
    return decodeURIComponent(plain);
  } catch {
    return words.slice(1, -1);
  }
}

// Where the items stand that are meant.
function placesOf(items, isMeant) {
  const places = [];
  for (let i = 0; i < items.length; i++) if (isMeant(items[i])) places.push(i);
  return places;
}

// How many of these bytes are not zero.
function countFull(bytes, from, to) {
  let full = 0;
  for (let i = Math.max(0, from); i < Math.min(to, bytes.length); i++) if (bytes[i] !== 0) full++;
  return full;
}
