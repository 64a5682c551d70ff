// A list of which one part is shown at a time, so that a million rows are as quick as ten.

class Paging {
  // `load(from, to)` asks for rows, and `draw(rows, from)` makes them a node.
  constructor({ label, unit, count, size, load, draw, first = 0 }) {
    Object.assign(this, { label, unit, count, size, load, draw, from: first });
    this.body = el("div", {});
    this.where = el("span", {});
    this.place = el("input", { type: "number", min: first, max: first + count - 1, "aria-label": `first ${unit} to show` });
    this.place.onchange = () => this.go(Number(this.place.value));
    this.first = first;
    const places = {
      First: () => first,
      Previous: () => this.from - size,
      Next: () => (this.from + size < first + count ? this.from + size : this.from),
      Last: () => first + size * Math.floor((count - 1) / size),
    };
    this.buttons = Object.entries(places).map(([words, to]) => button(words, () => this.go(to()), { "aria-label": `${words} ${plural(unit)}` }));
    const pager = el("nav", { class: "pager", "aria-label": `parts of: ${label}`, hidden: count <= size }, ...this.buttons, el("label", {}, "from ", this.place), this.where);
    this.element = el("div", {}, pager, this.body);
    this.turn = 0;
  }

  // Shows another part, and says which.
  async go(from) {
    await this.show(from);
    say(`${this.label}: ${this.where.textContent}`);
  }

  // Shows the part that begins here. Of two questions the later one counts.
  async show(from = this.from) {
    this.from = Math.max(this.first, Math.min(Math.floor(from) || this.first, this.first + this.count - 1));
    const to = Math.min(this.from + this.size, this.first + this.count), turn = ++this.turn;
    const rows = this.count ? await this.load(this.from, to) : [];
    if (turn !== this.turn) return this;
    this.body.replaceChildren(this.draw(rows, this.from));
    this.place.value = this.from;
    this.where.textContent = `${spoken(this.from)} to ${spoken(to - 1)}, of ${count(this.count, this.unit)}`;
    const [first, previous, next, last] = this.buttons, isFirst = this.from === this.first, isLast = to === this.first + this.count;
    // They stay where the keyboard is: one that is disabled would lose it.
    for (const it of [first, previous]) it.setAttribute("aria-disabled", String(isFirst));
    for (const it of [next, last]) it.setAttribute("aria-disabled", String(isLast));
    return this;
  }
}
