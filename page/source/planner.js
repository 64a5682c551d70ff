// The planner's module, and the records that it fills. LAYOUT tells where their fields stand; it is
// made from the header of the C interface when the page is built, so nothing here knows a place by
// itself.

const WIDTHS = { uint8_t: 1, uint16_t: 2, uint32_t: 4, uint64_t: 8, size_t: 8 };

// What the header has in place of an index where there is none.
const NONE = 2 ** 32 - 1;

// The calls that say where a module is refused, by the records that they fill.
const LOCATORS = { place: "bobbinazure_locate", broken_rule: "bobbinazure_locate_rule", excess: "bobbinazure_locate_excess" };

// A module's memory has no room for what is asked.
class NoRoom extends Error {}

// One run of the planner, in a memory of its own, which goes with it.
class Planner {
  constructor(compiled, layout) {
    this.layout = layout;
    this.calls = new WebAssembly.Instance(compiled, {}).exports;
    this.seen = null;
  }

  // The memory as it is now: where it grows, it is another buffer.
  get view() {
    if (this.seen?.buffer !== this.calls.memory.buffer) this.seen = new DataView(this.calls.memory.buffer);
    return this.seen;
  }

  room(size) {
    const at = Number(this.calls.malloc(BigInt(size)));
    if (at === 0) throw new NoRoom("no memory");
    return at;
  }

  free(at) {
    this.calls.free(BigInt(at));
  }

  // Room for a record of this kind, as the header begins it.
  begun(kind) {
    const at = this.room(this.layout.records[kind].size);
    this.calls[`page_${kind}_init`](BigInt(at));
    return at;
  }

  bytes(at, length) {
    return new Uint8Array(this.calls.memory.buffer, at, length);
  }

  // Room with these bytes.
  holding(bytes) {
    const at = this.room(bytes.length || 1);
    this.bytes(at, bytes.length).set(bytes);
    return at;
  }

  // Plans a module. The answer has its status, the plan and the text; both stand in this planner's memory.
  make(bytes, options) {
    const input = this.holding(bytes);
    const places = { options: this.begun("options"), plan: this.begun("plan"), text: this.begun("text") };
    this.write("options", places.options, options);
    const words = [input, bytes.length, places.options, places.plan, places.text].map(BigInt);
    const status = this.calls.bobbinazure_make_plan_and_text(...words);
    return { status, input, places, plan: this.read("plan", places.plan), text: this.read("text", places.text).text };
  }

  // Gives back all that an answer stands in.
  drop(answer) {
    this.calls.page_plan_free(BigInt(answer.places.plan));
    this.calls.page_text_free(BigInt(answer.places.text));
    for (const at of [answer.input, ...Object.values(answer.places)]) this.free(at);
  }

  // Where a module is refused, whose bytes stand here, and why: a record of this kind, or null
  // where the call fills none. What is too large depends on the options, which are those of the
  // record at this place.
  locate(kind, input, length, options) {
    const record = this.begun(kind), words = kind === "excess" ? [input, length, options, record] : [input, length, record];
    const status = this.calls[LOCATORS[kind]](...words.map(BigInt));
    const told = this.read(kind, record), place = status === this.layout.numbers.refused ? { ...told, sentence: told.sentence.text } : null;
    this.calls[`page_${kind}_free`](BigInt(record));
    this.free(record);
    return place;
  }

  // What each import of one module is given by the exports of another, which stand under the name
  // of a module.
  link(exporter, importer, name, options) {
    const inputs = [exporter, importer, new TextEncoder().encode(name)].map(bytes => [this.holding(bytes), bytes.length]);
    const places = { options: this.begun("options"), record: this.begun("link_record") };
    this.write("options", places.options, options);
    const status = this.calls.bobbinazure_link(...[...inputs.flat(), places.options, places.record].map(BigInt));
    return { status, inputs: inputs.map(([at]) => at), places, record: this.read("link_record", places.record) };
  }

  // Gives back what the answers of a link stand in.
  dropLink({ inputs, places }) {
    this.calls.page_link_record_free(BigInt(places.record));
    for (const at of [...inputs, ...Object.values(places)]) this.free(at);
  }

  // A number of so many bytes: exact, so one past 2^53 is a BigInt.
  number(at, width) {
    if (width === 1) return this.view.getUint8(at);
    if (width === 2) return this.view.getUint16(at, true);
    const low = this.view.getUint32(at, true);
    if (width === 4) return low;
    const high = this.view.getUint32(at + 4, true);
    return high < 2 ** 21 ? high * 2 ** 32 + low : this.view.getBigUint64(at, true);
  }

  write(kind, at, values) {
    const { fields } = this.layout.records[kind];
    for (const [name, value] of Object.entries(values)) {
      const field = fields[name];
      if (field.number === 1) this.view.setUint8(at + field.at, value);
      else this.view.setBigUint64(at + field.at, BigInt(value), true);
    }
  }

  // The record of this kind at this place: its numbers, records and lists, by the names of the header.
  read(kind, at) {
    const { fields } = this.layout.records[kind];
    if (kind === "bytes") return new Rows(this, "uint8_t", this.number(at + fields.at.at, 8), this.number(at + fields.len.at, 8));
    const told = {};
    for (const [name, field] of Object.entries(fields)) {
      const place = at + field.at;
      if (field.number) told[name] = this.number(place, field.number);
      else if (field.record) told[name] = this.read(field.record, place);
      else told[name] = new Rows(this, field.list, this.number(place, 8), this.number(place + 8, 8));
    }
    return told;
  }
}

// A list in a planner's memory. Its rows are read when they are asked for, so a list of a million
// costs nothing until then.
class Rows {
  constructor(planner, kind, at, length) {
    Object.assign(this, { planner, kind, at, length });
    this.width = WIDTHS[kind];
    this.size = this.width ?? planner.layout.records[kind].size;
  }

  get(index) {
    const at = this.at + index * this.size;
    return this.width ? this.planner.number(at, this.width) : this.planner.read(this.kind, at);
  }

  // One number of a row.
  number(index, name) {
    return this.column(name)(index);
  }

  // One number of each row, or of a record in it: a call that is as quick as can be, for lists that
  // are gone through whole. The memory must not grow meanwhile.
  column(name, inner = null) {
    const { view, layout } = this.planner, field = layout.records[this.kind].fields[name];
    const { at, number } = inner === null ? field : layout.records[field.record].fields[inner];
    const begin = this.at + at + (inner === null ? 0 : field.at), { size } = this;
    if (number === 4) return index => view.getUint32(begin + index * size, true);
    return index => this.planner.number(begin + index * size, number);
  }

  slice(from, to) {
    return Array.from({ length: Math.max(0, Math.min(to, this.length) - from) }, (_, i) => this.get(from + i));
  }

  // The bytes of a list of bytes, as they stand in the memory.
  get view() {
    return this.planner.bytes(this.at, this.length);
  }

  get text() {
    return new TextDecoder().decode(this.view);
  }
}
