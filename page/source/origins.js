// The source of a part of a plan: facts with the section, the index there and the bytes of the
// module, and the line of the text.

const REGIONS = {
  "static vmctx data": { what: "the same in every context: a mark, and pointers to the store, to built-in functions, to the epoch, to the heap of objects and to the types" },
  "imported memories": { section: 2, space: "memories", isImported: true, what: "where each imported memory is found" },
  "defined memories": { section: 5, space: "memories", what: "a pointer to the definition of each memory of the module" },
  "owned memories": { section: 5, space: "memories", what: "the definition of each memory of the module that is not shared: where its bytes begin and how many there are" },
  "imported functions": { section: 2, space: "functions", isImported: true, what: "the code of each imported function and the context it wants" },
  "imported tables": { section: 2, space: "tables", isImported: true, what: "where each imported table is found" },
  "imported globals": { section: 2, space: "globals", isImported: true, what: "where each imported global is found" },
  "imported tags": { section: 2, space: "tags", isImported: true, what: "where each imported tag is found" },
  "defined tables": { section: 4, space: "tables", what: "where the cells of each table of the module begin and how many there are" },
  "defined globals": { section: 6, space: "globals", what: "sixteen bytes for each global of the module, aligned to sixteen" },
  "defined tags": { section: 13, space: "tags", what: "the type of each tag of the module" },
  "module functions": { section: 3, what: "a reference to each function that can leave the module: one that is exported, or that a table or a global may hold" },
  "startup funcref": { what: "a reference to the function that runs at the start, where there is one" },
  "runtime data base pointers": { section: 11, what: "where each image and each segment that startup writes begins" },
  "runtime data lengths": { section: 11, what: "how many bytes each image and each segment that startup writes has" },
};
const MOST = 40;

class Origins {
  constructor(told) {
    this.told = told;
    this.plan = told.plan;
    this.places = told.places;
  }

  of(kind, index) {
    return this[kind](index);
  }

  line(kind, index, label = "line in the text") {
    const line = this.told.lines.lineOf(kind, index);
    return line === null ? [] : [{ label, text: this.told.lines.line(line), line }];
  }

  // A section with its number of items, or that there is none.
  section(id) {
    const section = this.places.section(id);
    if (!section) return { label: "section", text: `there is no ${SECTIONS[id]} section` };
    const items = section.count === null ? "" : `, ${count(section.count, "item")}`;
    return { label: "section", text: `${section.name} section (${id})${items}`, bytes: { from: section.from, to: section.to } };
  }

  // An item of a section: its index there and its bytes.
  item(label, id, index) {
    return { label, text: `number ${spoken(index)} of the ${SECTIONS[id]} section (${id})`, bytes: this.places.spanOf(id, index) };
  }

  region(number) {
    const region = this.plan.regions.get(number), name = region.name.text, known = REGIONS[name] ?? { what: "" };
    const facts = [
      { label: "offset", text: `byte ${spoken(region.begin)} of the context, ${count(region.size, "byte")}` },
      { label: "holds", text: known.what },
    ];
    if (known.space) {
      const all = this.plan.entities[known.space], imported = this.plan.entities[`imported_${known.space}`];
      facts.push({ label: "index", text: rangeWords(known.space, known.isImported ? 0 : imported, known.isImported ? imported : all) });
    }
    if (known.section) facts.push(this.section(known.section));
    return { title: name, facts: [...facts, ...this.line("region", number)] };
  }

  type(index) {
    const { told, plan } = this, group = told.groupOf[index], { begin, end } = plan.groups.get(group), facts = [];
    facts.push({ label: "type", text: told.typeWords(index) });
    facts.push({ label: "group", text: end - begin === 1 ? `group ${spoken(group)}, alone` : `group ${spoken(group)}, types ${spoken(begin)} to ${spoken(end - 1)}` });
    for (const declared of told.declaredOf.slice(index, 0, MOST)) facts.push(this.item(`declared as ${spoken(declared)}`, 1, declared));
    const equal = told.declaredOf.count(index);
    if (equal > MOST) facts.push({ label: "and", text: `${spoken(equal - MOST)} more of the type section, all equal to it` });
    if (equal === 0) facts.push({ label: "declared", text: "nowhere: the planner added it, for calls from outside, for an exception or for the start" });
    if (plan.startup && plan.startup_type === index) facts.push({ label: "used", text: "by the function that runs at the start" });
    this.usersOf(index, facts);
    return { title: `type ${spoken(index)}`, facts: [...facts, ...this.line("type", index), ...this.line("group", group, "its group’s line")] };
  }

  usersOf(index, facts) {
    const functions = this.told.functionsOf.slice(index, 0, MOST), all = this.told.functionsOf.count(index);
    if (!all) return;
    const named = f => this.told.contents.names.short(f), words = functions.map(f => spoken(f) + (named(f) ? ` (${named(f)})` : "")).join(", ");
    facts.push({ label: all === 1 ? "function of it" : "functions of it", text: words + (all > MOST ? ` and ${spoken(all - MOST)} more` : "") });
  }

  segment(index) {
    const row = this.plan.segments.get(index), source = this.told.activeData[index];
    const facts = [{ label: "writes", text: `${count(row.runtime === NONE ? 0 : this.told.runtimeLength(row.runtime), "byte")} of memory ${spoken(row.memory)} at ${this.placeWords(row, index)}` }];
    if (source !== undefined) facts.push(this.dataItem(source));
    facts.push(this.section(11));
    return { title: `segment ${spoken(index)}`, facts: [...facts, ...this.line("segment", index), ...this.line("runtime", row.runtime, "line of its bytes")], runtime: row.runtime };
  }

  placeWords(row, index) {
    const place = this.told.placed(row, index);
    return typeof place === "string" ? place : spoken(place);
  }

  dataItem(index) {
    return this.item(`data segment ${spoken(index)}`, 11, index);
  }

  image(index) {
    const row = this.plan.images.get(index), length = this.told.runtimeLength(row.runtime), facts = [];
    facts.push({ label: "begins as", text: `${count(length, "byte")} of memory ${spoken(row.memory)} at ${spoken(row.offset)}` });
    const sources = this.told.activeData.filter(i => this.places.data[i].memory === row.memory && this.places.data[i].length > 0);
    for (const source of sources.slice(0, MOST)) {
      const { address, length: bytes } = this.places.data[source];
      facts.push({ ...this.dataItem(source), text: `${count(bytes, "byte")} at ${addressAt(this.places.bytes, address) ?? "an expression"}, number ${spoken(source)} of the data section (11)` });
    }
    if (sources.length > MOST) facts.push({ label: "and", text: `${count(sources.length - MOST, "more data segment")}; where two overlap the later one wins` });
    facts.push(this.section(11));
    facts.push(...this.line("image", index), ...this.line("segment", index, "line, where it is written"), ...this.line("runtime", row.runtime, "line of its bytes"));
    return { title: `image of memory ${spoken(row.memory)}`, facts, runtime: row.runtime };
  }

  passive(index) {
    const row = this.plan.passive.get(index), facts = [{ label: "kept for", text: "memory.init, which code may run" }, this.dataItem(row.segment), this.section(11)];
    facts.push(...this.line("passive-data", index), ...this.line("runtime", row.runtime, "line of its bytes"));
    return { title: `passive data segment ${spoken(row.segment)}`, facts, runtime: row.runtime };
  }

  // The first active element segments become images, and startup writes the others in order: they
  // are the last ones.
  elements(index) {
    const row = this.plan.elements.get(index), source = this.told.activeElements[this.told.activeElements.length - this.plan.elements.length + index];
    const facts = [{ label: "writes", text: `${count(row.count, "element")} to table ${spoken(row.table)}` }];
    if (source !== undefined) facts.push(this.item(`element segment ${spoken(source)}`, 9, source));
    return { title: `element segment ${spoken(source ?? index)}`, facts: [...facts, this.section(9), ...this.line("element", index)] };
  }

  table(index) {
    const own = index - this.plan.entities.imported_tables, facts = [], taken = this.told.activeElements.slice(0, this.told.activeElements.length - this.plan.elements.length);
    facts.push(own < 0 ? { label: "index", text: `${spoken(index)}, imported` } : this.item(`table ${spoken(index)}`, 4, own));
    const sources = taken.filter(i => this.places.elements[i].table === index);
    for (const source of sources.slice(0, MOST)) facts.push(this.item(`element segment ${spoken(source)}`, 9, source));
    if (sources.length > MOST) facts.push({ label: "and", text: count(sources.length - MOST, "more element segment") });
    facts.push(this.section(own < 0 ? 2 : 4));
    let before = 0;
    for (let i = 0; i < own; i++) if (this.plan.table_images.get(i).len) before++;
    const line = own >= 0 && this.plan.table_images.get(own).len ? this.line("table-image", before) : [];
    return { title: `table ${spoken(index)}`, facts: [...facts, ...line, ...this.line("tables", 0, "line of all tables")] };
  }

  memory(index) {
    const imported = this.plan.entities.imported_memories;
    const facts = [{ label: "index", text: index < imported ? `${spoken(index)}, imported` : `${spoken(index)}: number ${spoken(index - imported)} of the memory section (5)` }];
    return { title: `memory ${spoken(index)}`, facts: [...facts, this.section(index < imported ? 2 : 5), ...this.line("memories", 0, "line of all memories")] };
  }

  import(number) {
    const { from, name, kind, index, type } = this.told.externals.import(number);
    const facts = [{ label: "names", text: `“${from}” “${name}”` }, ...entityFacts(kind, index, type), this.item(`import ${spoken(number)}`, 2, number), this.section(2)];
    return { title: `import ${spoken(number)}`, facts: [...facts, ...this.line("import", number)] };
  }

  export(number) {
    const { name, kind, index, type } = this.told.externals.export(number);
    const facts = [{ label: "name", text: `“${name}”` }, ...entityFacts(kind, index, type), this.item(`export ${spoken(number)}`, 7, number), this.section(7)];
    return { title: `export ${spoken(number)}`, facts: [...facts, ...this.line("export", number)] };
  }

  startup() {
    const facts = [{ label: "type", text: `type ${spoken(this.plan.startup_type)}` }];
    if (this.plan.start !== NONE) facts.push({ label: "calls", text: `function ${spoken(this.plan.start)}` }, this.section(8));
    return { title: "startup", facts: [...facts, ...this.line("startup", 0)] };
  }
}

// What an import or export is: its index by its kind, and its type.
function entityFacts(kind, index, type) {
  return [{ label: "index", text: `${kind} ${spoken(index)}` }, { label: "type", text: type }];
}

function rangeWords(space, from, to) {
  if (from === to) return `no ${space}`;
  return to - from === 1 ? `number ${spoken(from)} of the ${space}` : `numbers ${spoken(from)} to ${spoken(to - 1)} of the ${space}`;
}
