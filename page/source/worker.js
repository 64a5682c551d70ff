// The worker: it holds the plans, so that the page never waits for one. The page asks, and each
// question has one answer.

const STEPS = ["reading the file", "planning", "finding the lines of the text", "done"];

let compiled = null, layout = null, comparison = null, linking = null;
const sides = { one: null, other: null };

// Says how far the opening of a module is.
function step(side, number) {
  postMessage({ progress: { side, step: number, of: STEPS.length - 1, what: STEPS[number] } });
}

const ANSWERS = {
  async load({ module, records }) {
    layout = records;
    const begun = performance.now();
    compiled = await WebAssembly.compile(module);
    return { time: performance.now() - begun };
  },

  async open({ side, name, blob, options }) {
    sides[side] = comparison = linking = null;
    step(side, 0);
    const bytes = new Uint8Array(await blob.arrayBuffer());
    step(side, 1);
    const told = new Told(new Planner(compiled, layout), name, bytes, options);
    step(side, 2);
    told.index();
    step(side, 3);
    sides[side] = told;
    return told.summary();
  },

  close({ side }) {
    sides[side] = comparison = linking = null;
  },

  compare() {
    comparison = new Comparison(sides.one, sides.other);
    return comparison.summary();
  },

  differences({ from, to }) {
    return comparison.types(from, to);
  },

  segments({ from, to }) {
    return comparison.segments(from, to);
  },

  // Plans both modules once more, so it takes as long as that.
  link({ importer, name }) {
    linking = null;
    postMessage({ progress: { side: importer, step: 0, of: 1, what: "matching the imports" } });
    linking = new Linking(new Planner(compiled, layout), sides[importer === "one" ? "other" : "one"], sides[importer], name);
    return linking.summary();
  },

  // None, where a module is planned anew meanwhile.
  imports: ({ from, to }) => linking?.rows(from, to) ?? [],
  memories: ({ side, from, to }) => sides[side].memories(from, to),
  picture: ({ side, memory, from, to, columns }) => sides[side].picture(memory, from, to, columns),
  partAt: ({ side, memory, place }) => sides[side].partAt(memory, place),
  spans: ({ side, memory, from, to }) => sides[side].spans(memory, from, to),
  passive: ({ side, from, to }) => sides[side].passive(from, to),
  tables: ({ side, from, to }) => sides[side].tables(from, to),
  cells: ({ side, table, from, to }) => sides[side].cells(table, from, to),
  elements: ({ side, from, to }) => sides[side].elements(from, to),
  types: ({ side, from, to }) => sides[side].types(from, to),
  list: ({ side, list, isBySize, from, to }) => sides[side].contents.lines(list, isBySize, from, to),
  items: ({ side, index, from, to }) => sides[side].contents.itemsOf(index, from, to),
  lines: ({ side, from, to }) => sides[side].lines.slice(from, to),
  find: ({ side, words, from }) => sides[side].lines.find(words, from),
  bytes: ({ side, of, index, from, to }) => sides[side].bytesOf(of, index, from, to),
  blob: ({ side, of, index }) => sides[side].blobOf(of, index),
  origin: ({ side, kind, index }) => new Sources(sides[side]).of(kind, index),
};

// Words for an error: of the planner's memory that found no room, or of a browser that cannot run it.
function wordsOf(error) {
  if (error instanceof NoRoom || error instanceof RangeError) return "there is no memory for this module in the browser";
  return String(error);
}

if (typeof postMessage === "function" && typeof document === "undefined") {
  addEventListener("message", async ({ data: { id, question, words } }) => {
    try {
      postMessage({ id, answer: await ANSWERS[question](words) });
    } catch (error) {
      postMessage({ id, error: wordsOf(error) });
    }
  });
}
