// Small parts that all views are made of.

const byId = id => document.getElementById(id);

// An element with attributes, listeners (`onclick`) and what is inside it.
function el(name, words = {}, ...inside) {
  const node = document.createElement(name);
  for (const [key, value] of Object.entries(words)) {
    if (typeof value === "function") node[key] = value;
    else if (value === true) node.setAttribute(key, "");
    else if (value !== false && value !== null && value !== undefined) node.setAttribute(key, value);
  }
  node.append(...inside.filter(it => it !== null && it !== undefined));
  return node;
}

function svg(name, words, ...inside) {
  const node = document.createElementNS("http://www.w3.org/2000/svg", name);
  for (const [key, value] of Object.entries(words)) node.setAttribute(key, value);
  node.append(...inside);
  return node;
}

function button(words, onclick, more = {}) {
  return el("button", { type: "button", onclick, ...more }, words);
}

// Words with spaces between, of which each stays in one line.
function unbroken(words) {
  return words.flatMap((word, i) => [...(i ? [" "] : []), el("span", { class: "unbroken" }, word)]);
}

// A button of a bar, which shows its words where they fit.
function barButton(words, onclick, more) {
  return button(el("span", {}, words), onclick, more);
}

function card(title, ...inside) {
  // What a title says after a colon is no part of its name.
  const id = `title-${title.split(":")[0].toLowerCase().replace(/\W+/g, "-")}`;
  return el("section", { class: "card", "aria-labelledby": id }, el("h2", { id }, title), ...inside);
}

// A table with named columns; a column of numbers is named with "#" before it, and one of buttons
// is named "more". Each row is a list of nodes and words.
function table(caption, columns, rows) {
  const classes = columns.map(name => (name.startsWith("#") ? "n" : name === "more" && "more"));
  const head = el("tr", {}, ...columns.map((name, i) => el("th", { scope: "col", class: classes[i] }, name.replace("#", ""))));
  const body = rows.map(row => el("tr", {}, ...row.map((it, i) => (it instanceof HTMLTableCellElement ? it : el("td", { class: classes[i] }, ...[it].flat())))));
  return el("table", {}, el("caption", { class: "unseen" }, caption), el("thead", {}, head), el("tbody", {}, ...body));
}

// Whose words a list has: what the planner says is proved, and what this page's script finds is not.
function whosePart(words) {
  return el("p", { class: "soft small" }, words);
}

// What may be wider than its place: the keyboard can scroll it.
function scrolled(label, inside, more = "") {
  return el("div", { class: `scroll${more}`, tabindex: "0", role: "region", "aria-label": label }, inside);
}

// What may be taller too.
function boxed(label, inside) {
  return scrolled(label, inside, " tall");
}

// Says what happened: a line over the page, or over the dialog where one is open, for some seconds.
// A screen reader reads it too.
const SECONDS_SAID = 6;
let saying = null;

function say(words) {
  const [shown, other] = byId("dialog").open ? ["dialog-said", "said"] : ["said", "dialog-said"];
  byId(other).textContent = "";
  byId(shown).textContent = words;
  byId(shown).classList.remove("old");
  clearTimeout(saying);
  saying = setTimeout(() => byId(shown).classList.add("old"), SECONDS_SAID * 1000);
}

async function copy(words, what) {
  try {
    await navigator.clipboard.writeText(words);
  } catch {
    const area = el("textarea", { class: "unseen" });
    area.value = words;
    (document.querySelector("dialog[open]") ?? document.body).append(area);
    area.select();
    document.execCommand("copy");
    area.remove();
  }
  say(`${what} is copied.`);
}

function save(blob, name) {
  const link = el("a", { href: URL.createObjectURL(blob), download: name });
  link.click();
  setTimeout(() => URL.revokeObjectURL(link.href), 60000);
  say(`${name} is saved.`);
}
