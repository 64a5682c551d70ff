// The imports of one module, and the exports of the other that match them.

// Whose imports are looked for, and the name of a module under which the other's exports stand:
// where it is null, the one that the most of these imports have. Where the matching was stopped, it
// begins again by a button alone.
const matching = { importer: "other", name: null, isStopped: false };

function match(words) {
  Object.assign(matching, { isStopped: false }, words);
  keepAddress();
}

function importsCard(ask, plans) {
  const answer = el("div", {}), list = el("datalist", { id: "module-names" }), field = nameField(list.id);
  let turn = 0;
  const show = async () => {
    const own = ++turn, before = field.value;
    answer.replaceChildren(el("p", { class: "soft" }, "The imports are being matched."));
    const { parts, summary } = matching.isStopped ? { parts: [stoppedPart(again)] } : await answered(ask, plans);
    if (own !== turn) return;
    answer.replaceChildren(...parts);
    if (summary && field.value === before) offerNames(field, list, summary);
  };
  const again = words => {
    match(words);
    show();
  };
  const change = ({ target }) => {
    if (target === field) return again({ name: chosenName(field) });
    field.value = "";
    again({ importer: target.value, name: null });
  };
  const label = el("label", {}, "The exports are known as module ", field);
  const form = el("form", { onchange: change, onsubmit: event => event.preventDefault() }, directions(plans), el("p", {}, label, list));
  show();
  return card("Imports", form, answer);
}

function stoppedPart(again) {
  const begin = () => {
    again({});
    byId("module-name").focus();
  };
  return el("p", {}, "The matching was stopped. ", button("Match the imports", begin));
}

// Whose exports are given to whose imports.
function directions(plans) {
  const names = plans.map(plan => plan.summary.name), isSame = names[0] === names[1];
  const [one, other] = isSame ? names.map((name, i) => `${name} (${["the first", "the second"][i]})`) : names;
  const choice = (importer, words) => {
    const radio = el("input", { type: "radio", name: "importer", value: importer, checked: matching.importer === importer });
    return el("label", {}, radio, ` ${words}`);
  };
  return el(
    "fieldset",
    {},
    el("legend", {}, "Match"),
    choice("other", `exports of ${one} for imports of ${other}`),
    choice("one", `exports of ${other} for imports of ${one}`),
  );
}

function nameField(list) {
  const field = el("input", { type: "text", id: "module-name", list, autocomplete: "off", autocapitalize: "off", spellcheck: "false" });
  field.value = matching.name ?? "";
  field.offered = [];
  return field;
}

// Offers the names of modules that the imports have.
function offerNames(field, list, { name, modules, allModules }) {
  field.value = name;
  field.offered = modules.map(it => it.name);
  list.replaceChildren(...modules.map(it => el("option", { value: it.name }, count(it.imports, "import"))));
  field.title = allModules > modules.length ? `offered are ${spoken(modules.length)} of ${count(allModules, "name")}, those of the most imports` : "";
}

// The name that the field means: it holds no ends of lines, and a name may.
function chosenName({ value, offered }) {
  return offered.includes(value) ? value : offered.find(name => name.replace(/[\r\n]/g, "") === value) ?? value;
}

// What the planner answers, as parts of the card.
async function answered(ask, plans) {
  const { importer, name } = matching, [given, taken] = importer === "other" ? plans : plans.toReversed();
  try {
    const summary = await ask("link", { importer, name });
    return { summary, parts: matchedParts(summary, ask, given, taken) };
  } catch (error) {
    matching.isStopped = error.message === "stopped";
    return { parts: [el("p", { class: "bad" }, `The imports are not matched: ${error.message}.`)] };
  }
}

function matchedParts(summary, ask, exporter, importer) {
  if (summary.status !== "planned") return [el("p", { class: "bad" }, notMatched(summary))];
  const words = metWords(summary, importer.summary.name);
  say(`Imports: ${words}`);
  const line = el("p", { class: "result" }, el("b", { class: summary.first ? "bad" : "good" }, words));
  if (!summary.imports) return [line];
  const paging = importsTable(summary, ask, exporter, importer);
  if (summary.first?.number >= paging.size) line.append(" ", button(`show import ${spoken(summary.first.number)}`, () => paging.go(summary.first.number)));
  return [line, boxed("imports", paging.element)];
}

function notMatched({ status, refused }) {
  switch (status) {
    case "refused": return `${refused.name} is refused: ${reasonOf(refused)}.`;
    case "wrong_options": return "The options are wrong.";
    default: return "The browser has no memory for both modules.";
  }
}

// How many imports are matched, and what is wrong with the first that is not.
function metWords({ imports, met, first }, name) {
  if (imports === 0) return `${name} has no imports`;
  if (!first) return imports === 1 ? "the one import is matched" : `all ${spoken(imports)} imports are matched`;
  const fault = first.rule ? `: ${first.rule}` : " is missing";
  return `${spoken(met)} of ${count(imports, "import")} ${isOrAre(met)} matched; import ${spoken(first.number)}${fault}`;
}

function importsTable({ imports }, ask, exporter, importer) {
  const row = it => [
    button(spoken(it.number), () => showOrigin(importer, "import", it.number), { class: "plain", "aria-label": `Show source of import ${spoken(it.number)}` }),
    `“${it.from}”`,
    `“${it.name}”`,
    entityParts(it),
    givenParts(it, exporter),
  ];
  const draw = rows => table("imports", ["#import", "module", "name", "what it is", "export"], rows.map(row));
  const paging = new Paging({ label: "imports", unit: "import", count: imports, size: PART, load: (from, to) => ask("imports", { from, to }), draw });
  paging.show();
  return paging;
}

const entityParts = ({ kind, index, type }) => [`${kind} ${spoken(index)}, `, type.startsWith("(") ? el("code", {}, type) : type];

function givenParts({ answer, rule, given }, exporter) {
  const fault = answer === "given" ? [] : [el("b", { class: "bad" }, rule ?? "missing"), given ? ": " : ""];
  if (!given) return fault;
  const look = () => showOrigin(exporter, "export", given.number);
  return [...fault, button(`export ${spoken(given.number)}`, look, { class: "plain", "aria-label": `Show source of export ${spoken(given.number)}` }), ` “${given.name}”, `, ...entityParts(given)];
}
