// The sources of the lines of the lists, besides those of what the planner makes.

class Sources extends Origins {
  // The bytes of a line of a list, as a fact.
  bytesFact(list, index, label) {
    const { bytes, size } = this.told.contents.line(list, index);
    return { label, text: count(size, "byte"), bytes };
  }

  ofSection(section) {
    const { name, id, title, from, begin, to, count: items } = section, words = title === undefined ? "" : ` “${shortened(title)}”`;
    const facts = [{ label: "section", text: `${name} section (${spoken(id)})${words}`, bytes: { from, to } }];
    facts.push({ label: "contents", text: count(to - begin, "byte"), bytes: { from: begin, to } });
    if (items !== null) facts.push({ label: "items", text: spoken(items) });
    return facts;
  }

  anySection(index) {
    const section = this.places.sections[index], title = section.title === undefined ? "" : ` “${shortened(section.title)}”`;
    return { title: `${section.name} section${title}`, facts: this.ofSection(section) };
  }

  custom(index) {
    const section = this.places.sections[this.told.contents.customSections[index]], { facts } = customOf(this.told.module.subarray(section.begin, section.to));
    return { title: `custom section “${shortened(section.title ?? "")}”`, facts: [...facts.map(([label, text]) => ({ label: label || "contents", text })), ...this.ofSection(section)] };
  }

  function(index) {
    const { told, plan } = this, { names, bodies } = told.contents, { name, readable, from } = names.of(index), own = index - plan.entities.imported_functions;
    const facts = [{ label: "name", text: name === null ? "none" : from === "name section" ? `${name}, by the name section` : name }];
    if (readable !== null) facts.push({ label: "in the source", text: readable });
    facts.push({ label: "type", text: `type ${spoken(plan.functions.get(index))}: ${told.externals.function(index)}` });
    if (own < 0) facts.push(this.item(`import ${spoken(told.externals.importOf(0, index))}`, 2, told.externals.importOf(0, index)));
    else {
      facts.push(...this.bodyFacts(own, bodies.body(own)));
    }
    facts.push(...this.localNames(index));
    facts.push({ label: "escapes", text: this.escapeWords(plan.escapes.get(index)) }, ...this.hintsOf(index));
    const exported = told.externals.exportWords(0, index), line = indexIn(plan.function_names, plan.function_names.column("function"), index);
    if (exported !== null) facts.push({ label: "exports", text: exported });
    return { title: `function ${spoken(index)}`, facts: [...facts, this.section(own < 0 ? 2 : 10), ...(line === null ? [] : this.line("func-name", line))] };
  }

  import(number) {
    return this.withReadable(super.import(number), this.told.externals.import(number).name);
  }

  export(number) {
    return this.withReadable(super.export(number), this.told.externals.export(number).name);
  }

  withReadable(source, name) {
    const readable = this.told.contents.names.readable(name);
    if (readable !== null) source.facts.splice(1, 0, { label: "in the source", text: readable });
    return source;
  }

  // A body, whose offset debug information counts from the begin of the section's contents, and its
  // code behind the locals.
  bodyFacts(own, body) {
    const { code } = this.plan.bodies.get(own), place = body.from - this.plan.code_section_offset;
    return [
      { label: "body", text: `${count(body.to - body.from, "byte")}, from byte ${spoken(place)} of the contents of its section on`, bytes: body },
      { label: "locals", text: this.localsOf(own) },
      { label: "code", text: count(code.length, "byte"), bytes: { from: body.to - code.length, to: body.to } },
    ];
  }

  // The runs of locals of a body, behind its parameters.
  localsOf(own) {
    const { begin, len } = this.plan.bodies.get(own).locals, runs = this.plan.locals.slice(begin, begin + Math.min(len, MOST));
    const words = runs.map(({ count: many, value }) => `${spoken(many)} of ${valueWords(value, this.told.numbers)}`);
    return joined([...words, len > MOST && `and ${spoken(len - MOST)} more runs`]) || "none";
  }

  // The names of a function's parameters and locals, which the planner keeps with --native-debug.
  localNames(index) {
    const { local_names: names, functions, interned } = this.plan, of = names.column("function"), local = names.column("local");
    const first = indexIn(names, of, index), { fields, results } = interned.get(functions.get(index));
    if (first === null) return [];
    const endOf = (from, isMeant) => {
      while (from < names.length && of(from) === index && isMeant(local(from))) from++;
      return from;
    };
    const middle = endOf(first, number => number < fields.len - results), end = endOf(middle, () => true);
    const words = row => `${spoken(row.local)} “${shortened(row.name.text)}”`;
    const fact = (label, from, to) => ({
      label, text: joined([...names.slice(from, Math.min(to, from + MOST)).map(words), to - from > MOST && `and ${spoken(to - from - MOST)} more`]),
    });
    return [fact("names of parameters", first, middle), fact("names of locals", middle, end)].filter(({ text }) => text);
  }

  escapeWords(escape) {
    if (escape === NONE) return "no: no reference to it can be made";
    const { context, structs } = this.plan, at = context.func_refs + escape * structs.func_ref.size;
    return `yes: reference ${spoken(escape)}, at byte ${spoken(at)} of the context`;
  }

  hintsOf(index) {
    const { hints } = this.plan, found = indexIn(hints, hints.column("function"), index);
    return found === null ? [] : [{ label: "branch hints", text: spoken(hints.get(found).count) }];
  }

  global(index) {
    const { type, value, names, isImported } = this.told.contents.line("globals", index), own = index - this.plan.entities.imported_globals;
    const facts = [{ label: "type", text: type }, { label: "begins as", text: isImported ? "what is imported" : typeof value === "string" ? value : spoken(value) }];
    if (names.length) facts.push({ label: "names", text: names.join(", ") });
    facts.push(this.bytesFact("globals", index, isImported ? "its import" : `number ${spoken(own)} of the section`));
    return { title: `global ${spoken(index)}`, facts: [...facts, this.section(isImported ? 2 : 6), ...(isImported ? [] : this.globalLine(own))] };
  }

  globalLine(own) {
    const { global_values: known, expressed_globals: expressed } = this.plan, found = indexIn(known, known.column("global"), own);
    return found === null ? this.line("global-expr", indexIn(expressed, i => expressed.get(i), own)) : this.line("global", found);
  }

  element(index) {
    const { use, table, place, count: items, type } = this.told.contents.line("elements", index), own = indexIn(this.told.activeElements, i => this.told.activeElements[i], index);
    const facts = [{ label: "use", text: use }, { label: "items", text: `${spoken(items)}${type === null ? "" : ` of ${type}`}` }];
    if (table !== null) facts.push({ label: "place", text: `table ${spoken(table)}, at ${place}` });
    facts.push(this.bytesFact("elements", index, "segment"), this.section(9));
    const kept = own === null ? -1 : own - (this.told.activeElements.length - this.plan.elements.length);
    return { title: `element segment ${spoken(index)}`, facts: [...facts, ...(kept < 0 ? [] : this.line("element", kept))] };
  }

  datum(index) {
    const { memory, place } = this.told.contents.line("data", index), { length, begin } = this.places.data[index];
    const facts = [{ label: "writes", text: memory === null ? "nothing by itself: it is passive" : `memory ${spoken(memory)}, at ${place}` }];
    facts.push({ label: "bytes", text: count(length, "byte"), bytes: { from: begin, to: begin + length } }, this.dataItem(index), this.section(11));
    return { title: `data segment ${spoken(index)}`, facts };
  }
}
