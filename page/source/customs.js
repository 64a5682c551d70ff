// What is usual in custom sections, in words. The planner reads none of this but names and branch
// hints; all here is this script's reading.

const FEW_FACTS = 40;

// What is in a custom section whose contents are these bytes: words for a line, and facts one by one.
function customOf(bytes) {
  const cursor = new Cursor(bytes);
  try {
    const title = cursor.name(), read = CUSTOMS[title] ?? (title.startsWith("reloc.") ? readRelocations : title.startsWith(".debug_") ? readDebug : readUnknown);
    const facts = read(cursor);
    return { words: facts.slice(0, FEW_FACTS).map(([label, text]) => joinedFact(label, text)).join("; "), facts };
  } catch (error) {
    if (!(error instanceof Stop)) throw error;
    return { words: `not of the usual form: ${error.message}`, facts: [["form", `not the usual one: ${error.message}`]] };
  }
}

const customWords = bytes => shortened(customOf(bytes).words, 200);
const joinedFact = (label, text) => (label === "" ? text : `${label}: ${text}`);

const CUSTOMS = {
  name: readNameSection,
  producers: readProducers,
  target_features: readFeatures,
  "dylink.0": readDynamic,
  dylink: readOldDynamic,
  linking: readLinking,
  sourceMappingURL: cursor => [["source map", cursor.name()]],
  external_debug_info: cursor => [["debug information", cursor.name()]],
  build_id: readBuildId,
  "metadata.code.branch_hint": cursor => [["", `branch hints of ${count(cursor.count(), "function")}`]],
};

// Some items of a list, of which there may be more: the first ones become facts.
function readSome(cursor, read) {
  const all = cursor.count(), facts = [];
  for (let i = 0; i < Math.min(all, FEW_FACTS); i++) facts.push(read(cursor));
  if (all > FEW_FACTS) facts.push(["and", `${spoken(all - FEW_FACTS)} more`]);
  return facts;
}

function readProducers(cursor) {
  return readSome(cursor, () => {
    const field = cursor.name(), values = readSome(cursor, () => [cursor.name(), cursor.name()]);
    return [field, values.map(([name, version]) => (version ? `${name} ${version}` : name)).join(", ")];
  });
}

const PREFIXES = { "+": "used", "-": "not allowed", "=": "required" };

function readFeatures(cursor) {
  const of = {};
  for (let i = cursor.count(); i > 0; i--) {
    const prefix = String.fromCharCode(cursor.byte());
    (of[PREFIXES[prefix] ?? `with “${prefix}”`] ??= []).push(cursor.name());
  }
  return Object.entries(of).map(([label, names]) => [label, names.join(", ")]);
}

function readBuildId(cursor) {
  const length = cursor.count(), from = cursor.at;
  cursor.skip(length);
  return [["build id", Array.from(cursor.bytes.subarray(from, Math.min(from + 64, cursor.at)), byte => hexOf(byte, 2)).join("").toLowerCase()]];
}

// Parts of a section that each have a number, a length and contents. `readers` has what is known,
// and `names` the names of others.
function readParts(cursor, names, readers) {
  const facts = [];
  while (cursor.at < cursor.end && facts.length < 4 * FEW_FACTS) {
    const id = cursor.byte(), size = cursor.count(), from = cursor.at;
    cursor.skip(size);
    const inside = new Cursor(cursor.bytes, from, cursor.at), name = names[id] ?? `part ${spoken(id)}`;
    facts.push(...(readers[id]?.(inside, name) ?? [[name, count(size, "byte")]]));
  }
  return facts;
}

const NAMED = { 0: "module", 1: "functions", 2: "locals", 3: "labels", 4: "types", 5: "tables", 6: "memories", 7: "globals", 8: "element segments", 9: "data segments", 10: "fields", 11: "tags" };

function readNameSection(cursor) {
  const counted = (inside, name) => [[`names of ${name}`, spoken(inside.count())]];
  const ofParts = (inside, name) => [[`names of ${name}`, `in ${spoken(inside.count())} of what they are in`]];
  const plain = [1, 4, 5, 6, 7, 8, 9, 11].map(id => [id, counted]), indirect = [2, 3, 10].map(id => [id, ofParts]);
  return readParts(cursor, NAMED, { 0: inside => [["module", inside.name()]], ...Object.fromEntries([...plain, ...indirect]) });
}

const sizesOf = cursor => {
  const memory = cursor.count(), memoryAlign = cursor.count(), table = cursor.count(), tableAlign = cursor.count();
  return [["memory", `${count(memory, "byte")}, aligned to ${spoken(2 ** memoryAlign)}`], ["table", `${count(table, "cell")}, aligned to ${spoken(2 ** tableAlign)}`]];
};
const namesOf = (cursor, label) => [[label, readSome(cursor, () => [cursor.name()]).map(([name, more]) => (more ? `${name} ${more}` : name)).join(", ") || "none"]];

function readDynamic(cursor) {
  const flagged = what => inside => [[what, spoken(inside.count())]];
  return readParts(cursor, { 1: "sizes", 2: "needs", 3: "exports", 4: "imports", 5: "search paths" }, {
    1: sizesOf, 2: inside => namesOf(inside, "needs"), 3: flagged("exports with flags"), 4: flagged("imports with flags"), 5: inside => namesOf(inside, "search paths"),
  });
}

function readOldDynamic(cursor) {
  return [...sizesOf(cursor), ...namesOf(cursor, "needs")];
}

function readLinking(cursor) {
  const counted = (inside, name) => [[name, spoken(inside.count())]];
  const version = ["version", spoken(cursor.count())];
  return [version, ...readParts(cursor, { 5: "segments", 6: "functions at the start", 7: "groups", 8: "symbols" }, { 5: counted, 6: counted, 7: counted, 8: counted })];
}

function readRelocations(cursor) {
  const section = cursor.count();
  return [["of section", spoken(section)], ["relocations", spoken(cursor.count())]];
}

function readDebug(cursor) {
  return [["", `debug information (DWARF), ${count(cursor.end - cursor.at, "byte")}`]];
}

function readUnknown(cursor) {
  const rest = cursor.bytes.subarray(cursor.at, Math.min(cursor.end, cursor.at + PREVIEW));
  return [["begins with", lettersOf(rest)]];
}
