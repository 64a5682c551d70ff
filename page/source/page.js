// The page: modules that were chosen, options, and what is shown.

const EXAMPLES = { linked: "a small linked program", overlap: "two segments that overlap", planner: "the planner’s own module" };
// The option words of the program, by the fields of the C interface's options.
const SWITCHES = Object.fromEntries(Array.from(byId("options").querySelectorAll("input[type=checkbox]"), ({ name }) => [name, `--${name.replaceAll("_", "-")}`]));
const CHOICES = { pointer: ["--ptr=", "8"], collector: ["--gc=", "0"], page_size: ["--page=", "4096"], max_image: ["--max-image=", "1048576"] };
const COLLECTORS = ["drc", "null"];

const sides = { one: null, other: null };
let asking = null, shown = "one", isComparisonAwaited = false;

const bytesOf = text => Uint8Array.from(atob(text), letter => letter.charCodeAt(0));
const exampleBytes = name => bytesOf(byId(`module-${name}`).textContent);

// Options, and the address that keeps them.

function optionWords() {
  const form = byId("options").elements, words = Object.entries(SWITCHES).filter(([name]) => form[name].checked).map(([, word]) => word);
  for (const [name, [word, usual]] of Object.entries(CHOICES)) {
    const value = form[name].value;
    if (value !== usual) words.push(word + (name === "collector" ? COLLECTORS[value] : value));
  }
  return words;
}

function takeOptionWords(words) {
  const form = byId("options").elements;
  for (const [name, word] of Object.entries(SWITCHES)) form[name].checked = words.includes(word);
  for (const [name, [word, usual]] of Object.entries(CHOICES)) {
    const given = words.find(it => it.startsWith(word))?.slice(word.length);
    form[name].value = given === undefined ? usual : name === "collector" ? String(Math.max(0, COLLECTORS.indexOf(given))) : given;
  }
}

// Whether the program knows a word and, but for the power of two, its value.
function isOptionWord(word) {
  if (Object.values(SWITCHES).includes(word)) return true;
  const [name, [start]] = Object.entries(CHOICES).find(([, [start]]) => word.startsWith(start)) ?? [null, [""]], value = word.slice(start.length);
  return { pointer: () => ["4", "8"].includes(value), collector: () => COLLECTORS.includes(value) }[name]?.() ?? (name !== null && /^\d+$/.test(value));
}

// Says which words of the address are no options.
function showUnknown(words) {
  const fault = byId("address-fault");
  fault.hidden = words.length === 0;
  fault.textContent = words.length ? `The address has ${count(words.length, "unknown option")}, which ${isOrAre(words.length)} ignored: ${words.join(" ")}` : "";
}

function optionValues() {
  const form = byId("options").elements, values = {};
  for (const name of Object.keys(SWITCHES)) values[name] = form[name].checked ? 1 : 0;
  for (const name of Object.keys(CHOICES)) values[name] = Math.min(Number.MAX_SAFE_INTEGER, Math.max(0, Math.floor(Number(form[name].value) || 0)));
  return values;
}

// Says what is wrong with the options beside them. The planner refuses them too.
function checkOptions() {
  const field = byId("options").elements.page_size, number = Math.floor(Number(field.value)), isPower = number > 0 && Number.isInteger(Math.log2(number));
  byId("page-size-fault").hidden = isPower;
  field.setAttribute("aria-invalid", String(!isPower));
}

function addressWords() {
  const words = new URLSearchParams({ options: optionWords().join(" ") });
  for (const side of ["one", "other"]) if (sides[side]?.example) words.set(side, sides[side].example);
  if (shown === "comparison") words.set("importer", matching.importer);
  if (shown === "comparison" && matching.name !== null) words.set("as", matching.name);
  return `#${words}`;
}

function keepAddress() {
  history.replaceState(null, "", addressWords());
}

function readAddress() {
  const words = new URLSearchParams(location.hash.slice(1)), options = words.get("options")?.split(" ").filter(Boolean) ?? ["--cow", "--lazy-tables"];
  const known = options.filter(isOptionWord);
  takeOptionWords(known);
  showUnknown(options.filter(word => !known.includes(word)));
  checkOptions();
  byId("command").replaceChildren(...unbroken(commandWords()));
  for (const side of ["one", "other"]) {
    const example = words.get(side);
    if (EXAMPLES[example] && sides[side]?.example !== example) takeExample(side, example);
    else if (sides[side]) planSide(side);
  }
  // An address that says whose imports are matched is one of a comparison.
  isComparisonAwaited = words.has("importer");
  Object.assign(matching, { importer: words.get("importer") === "one" ? "one" : "other", name: words.get("as"), isStopped: false });
}

const commandWords = () => ["./translate FILE.wasm", ...optionWords()];

function optionsChanged() {
  showUnknown([]);
  checkOptions();
  byId("command").replaceChildren(...unbroken(commandWords()));
  keepAddress();
  showChosen();
  for (const side of ["one", "other"]) if (sides[side]) planSide(side);
}

// Modules.

function takeExample(side, example) {
  return take(side, EXAMPLES[example], new Blob([exampleBytes(example)]), example);
}

// Takes a module for a side, and plans it.
function take(side, name, blob, example = null) {
  if (side === "other") showOtherSide();
  remember(side, example ? null : name);
  sides[side] = { name, blob, example, isPlanning: sides[side]?.isPlanning ?? false, plan: null, isNew: true };
  if (side === matching.importer) matching.name = null;
  matching.isStopped = false;
  if (shown !== "comparison") shown = side;
  keepAddress();
  return planSide(side);
}

// A page cannot keep a file while it is loaded anew, but it keeps the name, and asks for the file again.

const boxOf = side => document.querySelector(`.drop[data-side=${side}]`);

function remember(side, name) {
  boxOf(side).querySelector(".again").hidden = true;
  try {
    if (name === null) sessionStorage.removeItem(`file-${side}`);
    else sessionStorage.setItem(`file-${side}`, name);
  } catch {
    // A browser may keep nothing for a page that is a file.
  }
}

function askAgain(side) {
  let name = null;
  try {
    name = sessionStorage.getItem(`file-${side}`);
  } catch {
    return;
  }
  if (name === null || sides[side]) return;
  if (side === "other") showOtherSide();
  const again = boxOf(side).querySelector(".again");
  again.textContent = `Choose ${name} again: the page was loaded anew and cannot keep a file.`;
  again.hidden = false;
}

// Plans what a side has. Where it changes meanwhile, it is planned once more, so that questions do not queue.
async function planSide(side) {
  const at = sides[side];
  at.isStale = true;
  if (at.isPlanning) return;
  at.isPlanning = true;
  showProgress();
  try {
    let summary = null;
    while (sides[side]?.isStale) {
      sides[side].isStale = false;
      const { name, blob } = sides[side];
      summary = await asking.ask("open", { side, name, blob, options: optionValues() });
    }
    setPlan(side, summary);
  } catch (error) {
    if (error.message !== "stopped") showFault(side, error);
    else sides[side] = null;
  } finally {
    if (sides[side]) sides[side].isPlanning = false;
    showChosen();
    hideProgress();
  }
}

// Once a module is there, what it was chosen with is one line. Where options change, it stays as it is.
function foldControls(side) {
  const controls = byId("controls");
  if (sides[side].isNew && controls.open) {
    const hadKeyboard = controls.contains(document.activeElement);
    controls.open = false;
    if (hadKeyboard) controls.querySelector("summary").focus();
  }
  sides[side].isNew = false;
}

function showChosen() {
  const names = [sides.one, sides.other].filter(Boolean).map(side => side.name);
  const options = optionWords();
  byId("chosen").replaceChildren(...(names.length ? [`${names.join(" and ")}, `, ...unbroken(options.length ? options : ["no option"])] : []));
}

function setPlan(side, summary) {
  sides[side].isPlanning = false;
  foldControls(side);
  sides[side].plan = { summary, side, ask: (question, words) => asking.ask(question, { side, ...words }) };
  byId(`name-${side}`).textContent = summary.name;
  const isRefused = summary.status !== "planned";
  say(`${summary.name} is ${isRefused ? "refused" : `planned in ${timeWords(summary.time)}`}`);
  showAnswer();
}

function showFault(side, error) {
  const what = `${sides[side]?.name ?? "The module"} cannot be planned here: ${error.message}.`;
  const needs = "The page needs WebAssembly with memories of 64 bits: Chrome from 133 on, Firefox from 134 on.";
  byId("answer").replaceChildren(card("Result", el("p", { class: "result bad" }, what), el("p", { class: "soft" }, needs)));
  say(error.message);
  sides[side] = null;
}

// What is shown: one plan, or both compared. Where one is planned anew, its answer comes with it. A
// comparison takes time, and is not shown where something else was chosen meanwhile.
let answering = 0;

async function showAnswer() {
  const turn = ++answering;
  const plans = [sides.one?.plan, sides.other?.plan], areAll = states => plans.every(plan => states.includes(plan?.summary.status)), areBoth = areAll(["planned", "refused"]);
  byId("shown").hidden = !sides.other;
  document.querySelector("[name=shown][value=comparison]").disabled = !areBoth;
  if (isComparisonAwaited && areBoth) showComparison();
  if (shown === "comparison" && !areBoth) shown = "one";
  if (shown !== "comparison" && !sides[shown]?.plan) shown = plans[0] ? "one" : "other";
  document.querySelector(`[name=shown][value=${shown}]`).checked = true;
  if (shown !== "comparison") {
    if (sides[shown]?.plan) byId("answer").replaceChildren(...answerOf(sides[shown].plan));
  } else if (!Object.values(sides).some(side => side.isPlanning)) {
    const summary = areAll(["planned"]) ? await asking.ask("compare") : null;
    if (turn === answering) byId("answer").replaceChildren(...comparisonOf(summary, askOfBoth, plans.map(goingBack)));
  }
}

function showComparison() {
  shown = "comparison";
  isComparisonAwaited = false;
  keepAddress();
}

// Asks the worker of both plans. Matching takes as long as planning, so it is shown how far that is.
async function askOfBoth(question, words) {
  if (question !== "link") return asking.ask(question, words);
  matchings++;
  showProgress();
  try {
    return await asking.ask(question, words);
  } finally {
    matchings--;
    hideProgress();
  }
}

// A plan whose lines are shown by leaving the comparison.
function goingBack(plan) {
  return { ...plan, goToLine: async line => { shown = plan.side; await showAnswer(); await plan.goToLine(line); } };
}

// How far an opening is.

let clock = null, begun = 0, matchings = 0;

function showProgress() {
  begun = performance.now();
  clearInterval(clock);
  clock = setInterval(() => {
    const seconds = (performance.now() - begun) / 1000;
    if (seconds > 0.3) byId("progress").hidden = false;
    byId("progress-time").textContent = `${seconds.toFixed(1)} s`;
  }, 100);
}

function hearProgress({ side, step, of, what }) {
  const name = sides[side]?.name ?? "the module";
  byId("progress-what").textContent = `${name}: ${what} (step ${Math.min(step + 1, of)} of ${of})`;
  byId("progress-bar").max = of;
  byId("progress-bar").value = step;
  if (performance.now() - begun > 300) say(`${name}: ${what}`);
}

function hideProgress() {
  if (matchings || Object.values(sides).some(side => side?.isPlanning)) return;
  clearInterval(clock);
  byId("progress").hidden = true;
}

// Ends what runs. A module that was planned before is planned again, since the worker that held it is gone.
function stop() {
  const kept = Object.entries(sides).filter(([, side]) => side && !side.isPlanning);
  asking.restart();
  say("planning is stopped");
  for (const [side] of kept) planSide(side);
}

// Opening: choosing, dropping, examples.

// Two files that are dropped together are compared.
function takeBoth(one, other, ignored) {
  isComparisonAwaited = true;
  take("one", one.name, one);
  take("other", other.name, other);
  if (ignored) say(`two files are compared; ${count(ignored, "other file is", "other files are")} ignored`);
}

function showOtherSide() {
  byId("other-side").hidden = false;
  byId("beside").hidden = true;
  byId("beside").setAttribute("aria-expanded", "true");
}

function prepareOpening() {
  for (const side of ["one", "other"]) {
    const input = byId(`file-${side}`);
    input.onchange = () => input.files[0] && take(side, input.files[0].name, input.files[0]);
  }
  for (const box of document.querySelectorAll(".drop")) {
    for (const choice of box.querySelectorAll("[data-example]")) choice.onclick = () => takeExample(box.dataset.side, choice.dataset.example);
  }
  byId("beside").onclick = () => {
    showOtherSide();
    byId("file-other").focus();
  };
  const sideOf = event => event.target.closest?.(".drop")?.dataset.side ?? "one";
  const mark = side => document.querySelectorAll(".drop").forEach(box => box.classList.toggle("over", box.dataset.side === side));
  addEventListener("dragover", event => { event.preventDefault(); mark(sideOf(event)); });
  addEventListener("dragleave", () => mark(null));
  addEventListener("drop", event => {
    event.preventDefault();
    mark(null);
    const [file, second, ...others] = event.dataTransfer.files;
    if (second) takeBoth(file, second, others.length);
    else if (file) take(sideOf(event), file.name, file);
  });
}

function preparePage() {
  const module = exampleBytes("planner");
  byId("planner-size").textContent = sizeWords(module.length);
  asking = new Asking({ script: byId("worker-script").textContent, module, layout: JSON.parse(byId("layout").textContent) }, hearProgress);
  asking.loaded.catch(error => showFault("one", error));
  prepareDialog();
  prepareOpening();
  byId("options").onchange = optionsChanged;
  byId("options").onsubmit = event => event.preventDefault();
  byId("copy-link").onclick = () => copy(location.href.split("#")[0] + addressWords(), "The link");
  byId("stop").onclick = stop;
  byId("shown").onchange = event => {
    shown = event.target.value;
    isComparisonAwaited = false;
    keepAddress();
    showAnswer();
  };
  addEventListener("hashchange", readAddress);
  // A question that comes while its module is planned anew has no answer.
  addEventListener("unhandledrejection", event => say(event.reason?.message ?? String(event.reason)));
  readAddress();
  for (const side of ["one", "other"]) askAgain(side);
}

preparePage();
