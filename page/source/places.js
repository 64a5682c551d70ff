// Where the parts of a module begin: its sections, and where it is planned the entries of those
// that the page shows. Nothing is judged here: at which byte a module is refused, and why, the
// planner says.

const SECTIONS = {
  0: "custom", 1: "type", 2: "import", 3: "function", 4: "table", 5: "memory", 6: "global", 7: "export", 8: "start", 9: "element",
  10: "code", 11: "data", 12: "data count", 13: "tag",
};
const HEADER = [0x00, 0x61, 0x73, 0x6d, 0x01, 0x00, 0x00, 0x00];
// A name comes first in a custom section, and in these the number that is all. In each other one it
// is the number of entries.
const OF_ONE_NUMBER = [8, 12];

// The entries whose places are kept, by the ids of their sections.
const ENTRIES = {
  1: overType,
  2: inOrder(overName, overName, overImported),
  4: overTable,
  6: inOrder(overMutable, overExpression),
  7: inOrder(overName, overBytes(1), overNumber),
  9: (cursor, places) => places.elements.push(readElement(cursor)),
  11: (cursor, places) => places.data.push(readSegment(cursor)),
};
const WITH_VALUE = 0x40;

class Places {
  constructor(bytes, isPlanned) {
    this.bytes = bytes;
    this.sections = [];
    // Where the entries of a section begin, by its id. Of a group it is each type.
    this.starts = Object.fromEntries(Object.keys(ENTRIES).map(id => [id, []]));
    this.elements = [];
    this.data = [];
    try {
      this.readSections(new Cursor(bytes));
      if (isPlanned) this.sections.forEach(section => this.readEntries(section));
    } catch (error) {
      if (!(error instanceof Stop)) throw error;
    }
  }

  section(id) {
    return this.sections.find(section => section.id === id) ?? null;
  }

  // The bytes of an entry of a section.
  spanOf(id, index) {
    return { from: this.starts[id][index], to: this.starts[id][index + 1] ?? this.section(id).to };
  }

  // Sections, as far as one leads to the next.
  readSections(cursor) {
    if (HEADER.some(byte => cursor.byte() !== byte)) return;
    while (cursor.at < cursor.end) this.readSection(cursor);
  }

  readSection(cursor) {
    const from = cursor.at, id = cursor.byte(), size = cursor.count(), begin = cursor.at, to = begin + size;
    const section = { id, name: SECTIONS[id] ?? "unknown", from, begin, to, count: null };
    const inside = new Cursor(this.bytes, begin, Math.min(to, cursor.end));
    this.sections.push(section);
    if (!SECTIONS[id]) throw new Stop("no section has this id");
    if (id === 0) section.title = inside.name();
    else if (!OF_ONE_NUMBER.includes(id)) section.count = inside.count();
    cursor.skip(size);
  }

  readEntries({ id, begin, to }) {
    const cursor = new Cursor(this.bytes, begin, to), starts = this.starts[id];
    if (!starts) return;
    overNumber(cursor);
    while (cursor.at < to) {
      if (id !== 1 || this.bytes[cursor.at] !== GROUP) starts.push(cursor.at);
      ENTRIES[id](cursor, this);
    }
  }
}

function overTable(cursor) {
  const hasValue = cursor.bytes[cursor.at] === WITH_VALUE;
  if (hasValue) cursor.skip(2);
  overTableType(cursor);
  if (hasValue) overExpression(cursor);
}

// What a segment begins with: its flags, and of an active one the index of the table or memory and
// where its address stands.
function readHead(cursor) {
  const flags = cursor.count();
  if (flags & 1) return { flags, index: null, address: null };
  const index = flags & 2 ? cursor.count() : 0, address = cursor.at;
  overExpression(cursor);
  return { flags, index, address };
}

function readElement(cursor) {
  const { flags, index: table, address } = readHead(cursor), isExpressed = flags > 3, overItem = isExpressed ? overExpression : overNumber;
  if (flags & 3) (isExpressed ? overValueType : overBytes(1))(cursor);
  const count = cursor.count(), items = cursor.at;
  for (let i = 0; i < count; i++) overItem(cursor);
  return { isActive: table !== null, isDeclared: (flags & 3) === 3, isExpressed, table, address, count, items };
}

function readSegment(cursor) {
  const { index: memory, address } = readHead(cursor), length = cursor.count(), begin = cursor.at;
  cursor.skip(length);
  return { memory, address, begin, length };
}
