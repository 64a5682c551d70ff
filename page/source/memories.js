// The memories of a plan. A view gets the plan that it shows: `plan.ask` asks the worker of it, and
// `plan.summary` says what it has.

const PART = 100;
const COLUMNS = 500;
const TALL = 40;

// A list of rows, of which the worker is asked one part at a time.
function listed(plan, { label, unit, count, size = PART, question, words = {}, draw, isBoxed = true }) {
  const load = (from, to) => plan.ask(question, { ...words, from, to });
  const paging = new Paging({ label, unit, count, size, load, draw });
  paging.show();
  return isBoxed ? boxed(label, paging.element) : paging.element;
}

// The source of a part, as a button.
function originButton(plan, kind, index, words = "Show source", label = `Show source of ${kind} ${spoken(index)}`) {
  return button(words, () => showOrigin(plan, kind, index), { "aria-label": label });
}

function bytesButton(plan, { runtime, length }, title, base) {
  const show = () => showBytes(plan, { of: "runtime", index: runtime, title, base });
  return button("Show bytes", show, { disabled: length === 0, "aria-label": `Show ${title}` });
}

const placeWords = place => (typeof place === "string" ? el("code", {}, place) : spoken(place));
const keyOf = kind => el("span", { class: `key ${kind}` });

function memoriesCard(plan) {
  const { summary } = plan;
  if (!summary.entities.memories) return card("Memories: none", passivePart(plan));
  const how = summary.hasImages
    ? "Each memory begins as its image. Where an engine cannot map it, startup writes the bytes of the image."
    : "Memories begin with zeros, and startup writes the data segments in order.";
  const legend = summary.hasImages ? [keyOf("image"), "image: the height shows how full it is"] : [keyOf("segment"), "bytes that segments write"];
  const draw = rows => el("div", {}, ...rows.map(row => memoryPart(plan, row)));
  return card(
    `Memories: ${spoken(summary.entities.memories)}${summary.hasImages ? ", with images" : ""}`,
    el("p", {}, how, " ", el("span", { class: "soft small unbroken" }, ...legend)),
    whosePart("The planner says all of this; this page’s script draws it, and counts the bytes that are not zero."),
    listed(plan, { label: "memories", unit: "memory", count: summary.entities.memories, size: 10, question: "memories", draw, isBoxed: false }),
    passivePart(plan),
  );
}

function memoryPart(plan, row) {
  const bytes = Number(row.minimum) * row.page;
  const words = joined([row.isImported && "imported", memoryWords(row), ...row.names]);
  const part = el("div", {}, el("h3", {}, `Memory ${spoken(row.index)} `, originButton(plan, "memory", row.index)), el("p", { class: "soft" }, words));
  if (bytes > 0) part.append(...memoryPictures(plan, row, bytes));
  const rows = plan.summary.hasImages ? row.images : row.segments;
  part.append(rows ? spansPart(plan, row, rows) : el("p", { class: "soft" }, "It has no data."));
  return part;
}

// The whole memory, and the part that has data where that is small.
function memoryPictures(plan, { index, span }, bytes) {
  const pictures = [memoryPicture(plan, index, 0, bytes, `memory ${spoken(index)}`)];
  if (!span || span.to - span.from >= bytes / 4) return pictures;
  const part = memoryPicture(plan, index, span.from, span.to, `the part of memory ${spoken(index)} that has data`);
  return [...pictures, el("p", { class: "soft small" }, "the part that has data:"), part];
}

// A picture of a part of a memory. A click on it shows where the byte there comes from; the list
// below it has the same for the keyboard.
function memoryPicture(plan, memory, from, to, label) {
  const range = `${label}, bytes ${spoken(from)} to ${spoken(to)}`;
  const picture = svg("svg", { viewBox: `0 0 ${COLUMNS} ${TALL}`, preserveAspectRatio: "none", role: "img", "aria-label": range });
  plan.ask("picture", { memory, from, to, columns: COLUMNS }).then(({ full, covered, hasImages }) => {
    if (hasImages) picture.append(columnsOf("extent", covered.map(share => (share ? 1 : 0))), columnsOf("image", full));
    else picture.append(columnsOf("segment", covered));
    const share = (100 * covered.reduce((sum, it) => sum + it, 0)) / COLUMNS;
    picture.setAttribute("aria-label", `${range}: ${share.toFixed(1)} % ${hasImages ? "in its image" : "written by segments"}`);
  });
  picture.onclick = async event => {
    const box = picture.getBoundingClientRect();
    const place = Math.floor(from + ((event.clientX - box.left) / box.width) * (to - from));
    const found = await plan.ask("partAt", { memory, place });
    if (found) showOrigin(plan, found.kind, found.index);
    else say(`nothing is written at byte ${spoken(place)}`);
  };
  return el("div", { class: "picture" }, picture, el("div", { class: "ends" }, el("span", {}, spoken(from)), el("span", {}, spoken(to))));
}

// Columns, each as high as its share. They overlap a little, so that no line shows between them.
function columnsOf(kind, shares) {
  const column = (share, x) => (share ? `M${x} ${TALL}v${-Math.max(1.5, share * TALL)}h1.02V${TALL}z` : "");
  return svg("path", { class: kind, d: Array.from(shares, column).join("") });
}

function spansPart(plan, memory, rows) {
  const kind = plan.summary.hasImages ? "image" : "segment", label = `${kind}s of memory ${spoken(memory.index)}`;
  const row = span => {
    const base = typeof span.place === "number" ? span.place : 0, title = `bytes of ${kind} ${spoken(span.index)}`;
    const look = [originButton(plan, kind, span.index), " ", bytesButton(plan, span, title, base)];
    return [[keyOf(kind), `${kind} ${spoken(span.index)}`], placeWords(span.place), spoken(span.length), spoken(span.full), el("code", {}, lettersOf(span.preview)), look];
  };
  const draw = spans => table(label, [kind, "#at", "#bytes", "#not zero", "first bytes", "more"], spans.map(row));
  return listed(plan, { label, unit: kind, count: rows, question: "spans", words: { memory: memory.index }, draw });
}

function passivePart(plan) {
  const { passive } = plan.summary.counts;
  if (!passive) return null;
  const row = it => {
    const look = [originButton(plan, "passive", it.index), " ", bytesButton(plan, it, `bytes of passive data segment ${spoken(it.segment)}`, 0)];
    return [`data segment ${spoken(it.segment)}`, spoken(it.length), spoken(it.full), el("code", {}, lettersOf(it.preview)), look];
  };
  const draw = rows => table("passive segments", ["segment", "#bytes", "#not zero", "first bytes", "more"], rows.map(row));
  return el(
    "div",
    {},
    el("h3", {}, "Passive segments"),
    el("p", { class: "soft" }, "Kept for code that copies them by memory.init."),
    listed(plan, { label: "passive segments", unit: "segment", count: passive, question: "passive", draw }),
  );
}
