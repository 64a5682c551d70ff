// What the page says of a module: its plan, or why there is none.

// By their numbers, from 1 on.
const RULES = [
  "",
  "a type of the type section names a type that is not there yet, or breaks a rule of supertypes",
  "a function or tag names no function type of the module",
  "the counts of functions and bodies, or of data segments, do not agree, or a body has too many locals",
  "the limits of a table or memory are out of range",
  "a table of references that cannot be null says no first value",
  "a constant expression leaves another type than its place wants",
  "an export names what is not there, or two exports have one name",
  "the start function is not there, or it takes or gives values",
  "a segment names a table, memory or function that is not there",
  "a reference names a type that is not there",
];
const UNSUPPORTED = {
  component: "it is a component", shared: "it has shared types", supertypes: "a type has two supertypes or more", operator: "an operator of a constant expression",
  exact_import: "it has an import of an exact type", interface_types: "it has interface types",
};
// What a file is that is certainly no core module, and what helps.
const FILES = {
  empty: ["the file is empty", "A module begins with the bytes 00 61 73 6D 01 00 00 00."],
  text: ["the file looks like text", "The planner reads binary modules: make one with wat2wasm, or with wasm-tools parse."],
  component: ["the file is a component", "The planner reads core modules: take one out with wasm-tools component unbundle."],
  other: ["the file is no WebAssembly module", "A module begins with the bytes 00 61 73 6D 01 00 00 00."],
};

function reasonOf({ kind, rule, what }) {
  switch (kind) {
    case "malformed": return "the bytes are no module by the grammar of the format";
    case "invalid": return `${RULES[rule]} (rule ${rule} of ten, the first that is broken)`;
    case "unsupported": return `not supported: ${UNSUPPORTED[what] ?? "a part that is not known here"}`;
    case "too_large": return "the module, or the data of its plan, is too large";
    default: return "an object or the context is larger than 4,294,967,295 bytes";
  }
}

// A plan of a module that the page shows.
function answerOf(plan) {
  const { summary } = plan, { status } = summary;
  if (status === "planned") return [resultCard(plan), memoriesCard(plan), tablesCard(plan), contextCard(plan), typesCard(plan), contentsCard(plan), textCard(plan)];
  if (status === "refused") return [refusalCard(plan), ...(summary.lists.sections ? [contentsCard(plan)] : []), textCard(plan)];
  const why = status === "wrong_options" ? "The options are wrong: the page size of images must be a power of two." : "The browser has no memory for this module.";
  return [card("Result", el("p", { class: "result bad" }, why))];
}

// When startup runs, and what more there is to say of it.
function startupWords(summary) {
  switch (summary.startup) {
    case "startup_none": return ["none", "nothing has to run"];
    case "startup_always": return ["always", `type ${spoken(summary.startupType)}`];
    default: return ["if needed", "where images are not mapped"];
  }
}

function factsOf(summary) {
  const { entities, counts } = summary, imported = kind => `${spoken(entities[`imported_${kind}`])} imported`;
  const memories = summary.hasImages ? count(counts.images, "image") : `${count(counts.segments, "segment")} to write`;
  const tables = counts.elements ? `${count(counts.elements, "segment")} to write` : "nothing to write";
  return [
    ["functions", entities.functions, imported("functions")],
    ["memories", entities.memories, memories],
    ["tables", entities.tables, tables],
    ["globals", entities.globals, imported("globals")],
    ["tags", entities.tags, imported("tags")],
    ["types", summary.types, `${spoken(counts.declared)} declared`],
    ["context", summary.context, "bytes"],
    ["startup", ...startupWords(summary)],
  ];
}

function factPart([name, told, more]) {
  const number = el("span", { class: "number" }, typeof told === "number" ? spoken(told) : told);
  return el("div", {}, el("dt", {}, name), el("dd", {}, number, el("span", { class: "soft small" }, more)));
}

function resultCard(plan) {
  const { summary } = plan;
  const result = [el("b", { class: "good" }, "Planned"), ` ${summary.name}, ${sizeWords(summary.size)}, in ${timeWords(summary.time)}`];
  const more = [
    summary.module !== null && `The module’s name is “${summary.module}”.`,
    summary.start !== null && `Its start function is ${spoken(summary.start)}.`,
    summary.needsObjects && "It needs a heap of objects.",
    summary.layouts > 0 && `${count(summary.layouts, "type has", "types have")} a layout of objects.`,
  ];
  const startup = summary.startup === "startup_none" ? null : originButton(plan, "startup", 0, "Show source of startup", "Show source of startup");
  return card(
    "Result: planned",
    el("p", { class: "result" }, ...result),
    el("p", { class: "soft" }, "The answers of the planner are proved. A note at each list says what this page’s script adds. Function bodies are not validated."),
    el("dl", { class: "facts" }, ...factsOf(summary).map(factPart)),
    el("p", {}, more.filter(Boolean).join(" "), " ", startup),
  );
}

function refusalCard(plan) {
  const { summary } = plan, { refusal } = summary, [file, help] = FILES[refusal.file] ?? [];
  return card(
    "Result: refused",
    el("p", { class: "result" }, el("b", { class: "bad" }, "Refused"), ` ${summary.name}, ${sizeWords(summary.size)}`),
    el("p", {}, el("b", {}, "What: "), `${reasonOf(refusal)}.`),
    el("p", {}, el("b", {}, "Where: "), ...wherePart(plan, refusal.place)),
    file ? el("p", {}, el("b", {}, "Why: "), `${file}. ${help}`) : null,
    el("p", { class: "soft small" }, "The planner says what and where, and that is proved. The page’s script finds why."),
  );
}

function wherePart(plan, place) {
  if (!place) return ["the planner names no single byte for it."];
  const { at, sentence, section } = place, title = section?.title ? ` “${section.title}”` : "";
  if (at === null) return [`${sentence}.`];
  const where = section ? `, in the ${section.name} section (${section.id})${title}` : "";
  // The planner's sentence names the section first.
  const what = section ? sentence.replace(`${section.name} section`, "") : `: ${sentence}`;
  const show = () => showBytes(plan, { of: "module", title: `byte ${spoken(at)} of ${plan.summary.name}`, base: 0, marked: { from: at, to: at + 1 } });
  return [`byte ${spoken(at)} (0x${hexOf(at)})${where}${what}. `, button("Show bytes", show)];
}
