// The lists of what is in a module, of which one is shown at a time: sections, imports, exports,
// functions, globals, segments, custom sections.

// The list that was chosen last stays, where another module or other options are planned.
let chosenList = "sections";

// What each list is called, whose words it has, and its lines.
const LISTS = {
  sections: {
    unit: "section", whose: "This page’s script finds the sections.", columns: ["section", "#items", "#from byte", "#bytes", "#share", "more"],
    row: (plan, it) => {
      const words = sectionWords(it), items = it.count === null ? "" : spoken(it.count);
      return [sourceName(plan, "anySection", it.index, words), items, spoken(it.bytes.from), ...sizeCells(plan, it), lineBytes(plan, it, words)];
    },
  },
  imports: {
    unit: "import", whose: "The planner says names, kinds and types; this page’s script makes names readable and finds places.", columns: ["#import", "module", "name", "what it is", "#bytes", "more"],
    row: (plan, it) => [
      sourceNumber(plan, "import", it.index), el("span", { class: "name" }, `“${it.from}”`), nameParts(it), entityParts({ ...it, index: it.entity }), spoken(it.size),
      lineBytes(plan, it, `import ${spoken(it.index)}`),
    ],
  },
  exports: {
    unit: "export", whose: "The planner says names, kinds and types; this page’s script makes names readable and finds places.", columns: ["#export", "name", "what it is", "#bytes", "more"],
    row: (plan, it) => [
      sourceNumber(plan, "export", it.index), nameParts(it), entityParts({ ...it, index: it.entity }), spoken(it.size), lineBytes(plan, it, `export ${spoken(it.index)}`),
    ],
  },
  functions: {
    unit: "function", whose: "The planner says types, escapes, names of the name section and where code ends; this page’s script makes names readable and finds places.",
    columns: ["#function", "name", "type", "#bytes of the body", "#share", "#escapes as", "more"],
    row: (plan, it) => {
      const escape = it.escape === null ? "" : spoken(it.escape);
      return [sourceNumber(plan, "function", it.index), functionName(it), el("code", {}, it.words), ...bodyCells(plan, it), escape, lineBytes(plan, it, `function ${spoken(it.index)}`)];
    },
  },
  globals: {
    unit: "global", whose: "The planner says types, values and names; this page’s script finds places.", columns: ["#global", "type", "begins as", "names", "#bytes", "more"],
    row: (plan, it) => [
      sourceNumber(plan, "global", it.index), it.type, valueParts(it), it.names.join(", "), spoken(it.size), lineBytes(plan, it, `global ${spoken(it.index)}`),
    ],
  },
  elements: {
    unit: "element segment", columns: ["#segment", "use", "place", "#items", "first items", "#bytes", "more"],
    whose: "The planner says the items of segments that startup writes and of passive ones; this page’s script reads those of the others, and finds places.",
    row: (plan, it) => [
      sourceNumber(plan, "element", it.index), it.use, tablePlace(it), spoken(it.count), itemParts(plan, it), spoken(it.size),
      lineBytes(plan, it, `element segment ${spoken(it.index)}`),
    ],
  },
  data: {
    unit: "data segment", whose: "This page’s script finds the segments; what the planner makes of them is under Memories.", columns: ["#segment", "place", "#bytes", "#share", "#not zero", "first bytes", "more"],
    row: (plan, it) => [
      sourceNumber(plan, "datum", it.index), it.memory === null ? "passive" : ["memory ", spoken(it.memory), ", at ", el("span", {}, it.place)], ...sizeCells(plan, it), spoken(it.full),
      el("code", {}, lettersOf(it.preview)), lineBytes(plan, it, `data segment ${spoken(it.index)}`),
    ],
  },
  customs: {
    unit: "custom section", whose: "This page’s script reads them.", columns: ["name", "what is in it", "#from byte", "#bytes", "#share", "more"],
    row: (plan, it) => [
      sourceName(plan, "custom", it.index, `“${it.title ?? ""}”`), el("span", { class: "name" }, it.words), spoken(it.bytes.from), ...sizeCells(plan, it),
      lineBytes(plan, it, `custom section ${spoken(it.index)}`),
    ],
  },
};

const listWords = list => plural(LISTS[list].unit);

function contentsCard(plan) {
  const { lists } = plan.summary, body = el("div", {}), names = Object.keys(lists);
  const choices = names.map(list => button(count(lists[list], LISTS[list].unit), () => choose(list)));
  const choose = list => {
    chosenList = list;
    choices.forEach((choice, i) => choice.setAttribute("aria-pressed", String(names[i] === list)));
    body.replaceChildren(listPart(plan, list, lists[list]));
  };
  choose(names.includes(chosenList) ? chosenList : "sections");
  return card("Contents of the module", sectionsBar(plan), el("div", { class: "choices", role: "group", "aria-label": "which list is shown" }, ...choices), body);
}

function listPart(plan, list, lines) {
  const { unit, whose, columns, row } = LISTS[list], label = listWords(list);
  const note = whosePart(whose);
  if (!lines) return el("div", {}, note, el("p", { class: "soft" }, `It has no ${label}.`));
  let isBySize = false;
  const draw = rows => table(label, columns, rows.map(it => row(plan, it)));
  const paging = new Paging({ label, unit, count: lines, size: PART, load: (from, to) => plan.ask("list", { list, isBySize, from, to }), draw });
  const sort = button("Largest first", () => {
    isBySize = !isBySize;
    sort.setAttribute("aria-pressed", String(isBySize));
    paging.go(0);
  }, { "aria-pressed": "false" });
  paging.show();
  return el("div", {}, note, el("p", { class: "choices" }, sort), boxed(label, paging.element));
}

// The sections as wide as they are long. Those that are no wider than a hair are shown by the list alone.
const MOST_IN_BAR = 60;

function sectionsBar(plan) {
  const bar = el("div", { class: "bar", role: "group", "aria-label": "the sections, as wide as they are long" }), { size } = plan.summary;
  plan.ask("list", { list: "sections", isBySize: true, from: 0, to: MOST_IN_BAR }).then(sections => {
    sections.sort((one, other) => one.index - other.index);
    bar.replaceChildren(...sections.map(it => {
      const words = `${sectionWords(it)}: ${count(it.size, "byte")}, ${shareWords(it.size, size)}`, style = `flex: ${it.size} 1 0; background: ${COLOURS[it.id % COLOURS.length]}`;
      return barButton(it.title ?? it.name, () => showOrigin(plan, "anySection", it.index), { style, title: words, "aria-label": words });
    }));
  });
  return el("div", {}, bar, el("div", { class: "ends" }, el("span", {}, "0"), el("span", {}, spoken(size))));
}

const shareWords = (size, all) => `${((100 * size) / (all || 1)).toFixed(1)} %`;
const sectionWords = ({ id, name, title, isCut }) => `${id === 0 ? `custom “${title ?? ""}”` : `${name} (${spoken(id)})`}${isCut ? ", cut off" : ""}`;
const sizeCells = (plan, { size }) => [spoken(size), shareWords(size, plan.summary.size)];
const bodyCells = (plan, it) => (it.isImported ? ["imported", ""] : sizeCells(plan, it));
const sourceName = (plan, kind, index, words) => button(words, () => showOrigin(plan, kind, index), { class: "plain long", "aria-label": `Show source of ${words}` });

function sourceNumber(plan, kind, index) {
  const what = { datum: "data segment", element: "element segment" }[kind] ?? kind;
  return button(spoken(index), () => showOrigin(plan, kind, index), { class: "plain", "aria-label": `Show source of ${what} ${spoken(index)}` });
}

function lineBytes(plan, { bytes, size }, what) {
  const show = () => showBytes(plan, { of: "module", title: `${what}: bytes of the module`, base: 0, marked: bytes });
  return button("Show bytes", show, { disabled: size === 0, "aria-label": `Show bytes of ${what}` });
}

// A name as it is in the source, with the one of the module where the pointer is.
const nameParts = ({ name, readable }) => el("span", { class: "name", title: readable && name }, `“${readable ?? name}”`);

function functionName({ name, readable, from }) {
  return el("span", { class: from === "name section" ? "name" : "name soft", title: readable && name }, readable ?? name ?? "no name");
}

function valueParts({ value, isImported }) {
  if (isImported) return el("span", { class: "soft" }, "imported");
  return typeof value === "string" ? el("code", {}, value) : spoken(value);
}

const tablePlace = ({ table, place }) => (table === null ? "" : `table ${spoken(table)}, at ${place}`);

// The first items of an element segment: functions by their numbers, others by their words.
function itemParts(plan, { index, items, count: all }) {
  const words = items.map(it => (typeof it === "number" ? spoken(it) : it)).join(", ");
  if (all <= items.length) return words;
  return [`${words} … `, button("Show all", () => showItems(plan, index, all), { "aria-label": `Show all items of element segment ${spoken(index)}` })];
}

function showItems(plan, index, all) {
  const label = `items of element segment ${spoken(index)}`;
  const draw = items => el("ol", { class: "cells", start: items[0]?.place ?? 0 }, ...items.map(it => (typeof it.words === "string" ? el("li", { class: "cell" }, it.words) : cellPart(it))));
  openDialog(label, listed(plan, { label, unit: "item", count: all, size: 250, question: "items", words: { index }, draw }));
}
