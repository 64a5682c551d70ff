// What the lines of the text say, by their first words. docs/FORMAT.md says it whole.

const LEGEND = {
  types: "how many interned types there are",
  type: "an interned type by its number; behind “trampoline” the type whose trampoline it shares",
  group: "a recursion group: its number, its first type, and the type behind its last one",
  declared: "a type of the type section, and its interned type",
  import: "an import: its number, the names of module and entity, the kind, and the index among those of its kind",
  functions: "how many functions are imported, and how many are defined",
  tables: "the same of tables",
  memories: "the same of memories",
  globals: "the same of globals",
  tags: "the same of tags",
  "gc-heap": "whether a defined table holds references to collected objects",
  escape: "a function to which a reference can be made, and the number of that reference in the context",
  signature: "an interned type that a function which escapes has",
  export: "an export: its name, the kind, and the index among those of its kind",
  name: "the name of the module",
  "func-name": "a function by its index, and its name",
  hints: "a function by its index, and how many branch hints it has",
  start: "the function that startup calls last",
  global: "a defined global by its number, and the value that it begins as",
  "global-expr": "a defined global by its number, and the expression that startup evaluates",
  "table-expr": "a defined table by its number, and the expression that each of its cells begins as",
  "table-image": "a defined table by its number, how many cells its image has, and each of them: a function or null",
  element: "an element segment that startup writes: the table, how many items, and the place",
  "passive-element": "a passive element segment by its number among these, the type of its items, and how many there are",
  "memory-init": "whether memories begin as images (static) or startup writes the segments (segmented)",
  "data-align": "the alignment of the runtime data, in bytes",
  image: "the image of a memory: the memory, its address there, and the runtime data that has its bytes",
  segment: "a data segment that startup writes: the memory, its runtime data, and the address",
  "passive-data": "a passive data segment by its index, and its runtime data",
  runtime: "runtime data by its number: its first byte in the block of all, and the byte behind its last one",
  startup: "when the startup function runs, and its interned type",
  layout: "the layout of the objects of an interned type, in bytes; r behind an offset is a reference that is collected",
  region: "a region of the context, from the last one on: how many bytes, and its name",
  context: "how many bytes the context has",
  refused: "why the module is refused",
};

// Folded, until it is wanted. Each word leads to its first line.
function legendPart(plan) {
  const { kinds } = plan.summary;
  const row = ({ word, lines, first }) => [button(word, () => plan.goToLine(first), { class: "plain mono", "aria-label": `Show the first line of ${word}` }), spoken(lines), LEGEND[word] ?? ""];
  const rows = kinds.map(row);
  return el("details", {}, el("summary", {}, "What the lines say"), scrolled("what the lines say", table("what the lines say", ["first word", "#lines", "what it says"], rows)));
}
