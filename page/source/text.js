// The text of a plan, by lines.

const LINES = 400;

function textCard(plan) {
  const { lines, name } = plan.summary;
  let chosen = null;
  const lineOf = (words, number) => el("span", { class: number === chosen ? "line chosen" : "line", "data-number": spoken(number + 1) }, words);
  const paging = new Paging({
    label: "the text",
    unit: "line",
    first: 1,
    count: lines,
    size: LINES,
    load: (from, to) => plan.ask("lines", { from: from - 1, to: to - 1 }),
    draw: (rows, from) => el("pre", { class: "text" }, ...rows.map((row, i) => lineOf(row, from - 1 + i))),
  });
  const box = boxed("the text of the plan", paging.element);
  // Shows a line. Returns its words.
  const show = async line => {
    chosen = line;
    await paging.show(1 + LINES * Math.floor(line / LINES));
    const shown = box.querySelector(".chosen");
    shown?.scrollIntoView({ block: "center" });
    return `line ${spoken(line + 1)}: ${shortened(shown?.textContent ?? "")}`;
  };
  // Shows a line and moves the keyboard there.
  plan.goToLine = async line => {
    const words = await show(line);
    box.focus({ preventScroll: true });
    say(words);
  };
  paging.show(1);
  return card(`Text: ${count(lines, "line")}`, textTools(plan, name, { next: () => (chosen === null ? 0 : chosen + 1), show }), legendPart(plan), box);
}

// Finding, copying and saving. Words are looked for from the line `next()` on, and `show` shows a
// line. The keyboard stays where it is, so that Enter finds the next line again.
function textTools(plan, name, { next, show }) {
  const words = el("input", { type: "search", id: "find", "aria-label": "words to find in the text, in upper or lower case", placeholder: "find, any case" });
  const hits = el("span", { class: "soft" });
  const find = async event => {
    event.preventDefault();
    if (!words.value) return;
    const found = await plan.ask("find", { words: words.value, from: next() });
    const line = found && await show(found.line);
    hits.textContent = found ? `${spoken(found.number)} of ${count(found.count, "line")}` : "not found";
    say(found ? `${hits.textContent}, ${line}` : `“${shortened(words.value)}” is not found`);
  };
  words.oninput = () => (hits.textContent = "");
  const text = () => plan.ask("blob", { of: "text" });
  return el(
    "form",
    { class: "pager", role: "search", onsubmit: find },
    words,
    el("button", {}, "Find next"),
    hits,
    button("Copy", async () => copy(await (await text()).text(), "The text")),
    button("Save", async () => save(await text(), `${name.replace(/\.wasm$/, "")}.txt`)),
  );
}
