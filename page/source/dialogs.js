// What opens over the page: the source of a part, and bytes. One opens over another, and the last
// one that closes gives back the keyboard.

const opened = [];

function openDialog(title, body, isOver = byId("dialog").open) {
  const dialog = byId("dialog");
  if (isOver && dialog.open) opened.push({ title: byId("dialog-title").textContent, body: [...byId("dialog-body").childNodes] });
  fillDialog(title, [body]);
  if (!dialog.open) dialog.showModal();
  byId("dialog-title").focus();
}

function fillDialog(title, nodes) {
  byId("dialog-title").textContent = title;
  byId("dialog-body").replaceChildren(...nodes);
  byId("dialog-back").hidden = opened.length === 0;
}

function closeDialog() {
  opened.length = 0;
  byId("dialog").close();
}

function prepareDialog() {
  byId("dialog-close").onclick = closeDialog;
  byId("dialog").onclose = () => (opened.length = 0);
  byId("dialog").onclick = event => event.target === byId("dialog") && closeDialog();
  byId("dialog-back").onclick = () => {
    const { title, body } = opened.pop();
    fillDialog(title, body);
    byId("dialog-title").focus();
  };
}

// The source of a part of a plan.
async function showOrigin(plan, kind, index) {
  const { title, facts, runtime } = await plan.ask("origin", { kind, index });
  const list = el("dl", { class: "origin" });
  for (const fact of facts) list.append(el("dt", {}, fact.label), el("dd", {}, ...factParts(plan, fact)));
  const more = runtime === undefined ? [] : [el("p", {}, button("Show the bytes that it writes", () => showBytes(plan, { of: "runtime", index: runtime, title: `Bytes of ${title}`, base: 0 })))];
  const hasBytes = facts.some(fact => fact.bytes), note = hasBytes ? el("p", { class: "soft small" }, "This page’s script finds places in the module, and makes names readable.") : null;
  openDialog(title, el("div", {}, list, ...more, ...(note ? [note] : [])));
}

function factParts(plan, { text, bytes, line }) {
  const shown = text.length > 400 ? `${text.slice(0, 400)} …` : text, parts = [line === undefined ? shown : el("code", {}, shown)];
  if (line !== undefined) {
    const go = () => {
      closeDialog();
      plan.goToLine(line);
    };
    parts.push(" ", button(`line ${spoken(line + 1)}`, go, { "aria-label": `line ${spoken(line + 1)} of the text` }));
  }
  if (bytes) {
    const show = () => showBytes(plan, { of: "module", title: `${text}: bytes of the module`, base: 0, marked: bytes });
    parts.push(" ", button(`Show bytes ${spoken(bytes.from)} to ${spoken(bytes.to)} of the module`, show));
  }
  return parts;
}

// Bytes that are shown at a time, and in a row: on a narrow screen eight, so that their letters are in view.
const SHOWN_BYTES = 512;
const bytesInRow = () => (matchMedia("(max-width: 560px)").matches ? 8 : 16);

// Bytes in rows. `base` is the address of the first; `marked` are the bytes that are meant. Where
// these come behind the last one, that is shown.
async function showBytes(plan, { of, index = 0, title, base, marked = null }) {
  const inRow = bytesInRow(), rowOf = place => place - (((place % inRow) + inRow) % inRow);
  const { length, next } = await plan.ask("bytes", { of, index, from: 0, to: 0 }), begin = marked ? rowOf(Math.min(marked.from, length - 1)) : 0;
  let following = next;
  const paging = new Paging({
    label: title, unit: "byte", count: length, size: SHOWN_BYTES,
    load: async (from, to) => {
      const told = await plan.ask("bytes", { of, index, from, to });
      following = told.next;
      return told.bytes;
    },
    draw: (bytes, from) => boxed("bytes", el("pre", {}, ...hexRows(bytes, from, base, marked, inRow))),
  });
  const jump = el("input", { type: "text", inputmode: "text", "aria-label": "address to go to, as 4096 or 0x1000", placeholder: "0x1000" });
  const go = event => {
    event.preventDefault();
    const place = Number(jump.value) - base;
    if (Number.isFinite(place)) paging.show(rowOf(place));
  };
  const forward = () => (following === null ? say("only zeros follow") : paging.show(rowOf(following)));
  const store = async () => save(await plan.ask("blob", { of, index }), of === "module" ? plan.summary.name : `runtime-${index}.bin`);
  const tools = [jump, el("button", {}, "Go to address"), button("Next that is not zero", forward), button("Save", store)];
  const words = count(length, "byte") + (base ? `, from address ${spoken(base)} on` : "");
  openDialog(title, el("div", {}, el("p", { class: "soft" }, words), el("form", { class: "pager", onsubmit: go }, ...tools), paging.element));
  await paging.show(begin);
}

// Each row has its address, its bytes with a gap after eight, and their letters.
function hexRows(bytes, from, base, marked, inRow) {
  const isMarked = place => marked && place >= marked.from && place < marked.to, parts = [];
  for (let row = 0; row < bytes.length; row += inRow) {
    const part = bytes.subarray(row, row + inRow), letters = lettersOf(part), wide = 3 * inRow + (inRow > 8 ? 1 : 0);
    parts.push(`${hexOf(base + from + row, 8)}  `);
    part.forEach((byte, i) => {
      const pair = hexOf(byte, 2);
      parts.push(isMarked(from + row + i) ? el("mark", {}, pair) : pair, i === 7 && inRow > 8 ? "  " : " ");
    });
    parts.push(" ".repeat(wide - 3 * part.length - (part.length > 7 && inRow > 8 ? 1 : 0)), " ");
    [...letters].forEach((letter, i) => parts.push(isMarked(from + row + i) ? el("span", { class: "marked" }, letter) : letter));
    parts.push("\n");
  }
  return parts;
}
