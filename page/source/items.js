// The items of element segments. Of a segment that startup writes, and of a passive one, the
// planner's tables have them. Of a segment that became a part of a table's image, and of a declared
// one, this script reads them.

class Items {
  constructor({ plan, places, numbers, module, activeElements }) {
    Object.assign(this, { plan, places, numbers, module, active: activeElements });
    this.taken = activeElements.length - plan.elements.length;
    this.passiveOf = plan.passive_segments.column("segment");
    this.read = { index: null, items: [] };
  }

  // Where the planner has its items, or null.
  source(index) {
    const { plan, active, taken } = this, passive = indexIn(plan.passive_segments, this.passiveOf, index);
    if (passive !== null) return { list: plan.passive_items, row: plan.passive_segments.number(passive, "passive") };
    const own = indexIn(active, i => active[i], index);
    return own === null || own < taken ? null : { list: plan.element_items, row: own - taken };
  }

  segment(index) {
    const { isActive, isDeclared, table, address, count } = this.places.elements[index], source = this.source(index);
    const told = source && source.list.rows.get(source.row), isKept = isActive && source !== null;
    const expressed = () => (isKept ? expressionWords(this.plan.element_places, source.row, this.numbers) : "an expression");
    const place = isActive ? addressAt(this.module, address) ?? expressed() : null;
    return {
      use: isActive ? (isKept ? "startup writes it" : "part of an image") : isDeclared ? "declared" : "passive", table, place,
      type: told ? valueWords(told.element, this.numbers) : null, count: told ? told.functions.len + told.expressions.len : count, isOfPlanner: told !== null,
    };
  }

  // Items of a segment: functions by their numbers, others by the words of their expressions.
  words(index, from, to) {
    const source = this.source(index);
    if (!source) return this.readOnes(index).slice(from, to);
    const { functions, expressions } = source.list.rows.get(source.row), { list } = source;
    if (functions.len) return list.functions.slice(functions.begin + from, functions.begin + Math.min(to, functions.len));
    const last = Math.min(to, expressions.len);
    return Array.from({ length: Math.max(0, last - from) }, (_, i) => plainItem(expressionWords(list.expressions, expressions.begin + from + i, this.numbers)));
  }

  readOnes(index) {
    if (this.read.index === index) return this.read.items;
    const { items, count, isExpressed } = this.places.elements[index], cursor = new Cursor(this.module, items), read = [];
    for (let i = 0; i < count; i++) read.push(isExpressed ? this.readExpressed(cursor) : cursor.count());
    this.read = { index, items: read };
    return read;
  }

  // An item that is an expression: of those that become images there are two kinds.
  readExpressed(cursor) {
    const code = this.module[cursor.at], from = cursor.at;
    overExpression(cursor);
    if (code === 0xd0) return "null";
    const inside = new Cursor(this.module, from + 1), index = code === 0xd2 ? inside.count() : null;
    return index !== null && inside.at + 1 === cursor.at ? index : "an expression";
  }
}

// A reference to a function by its number, and the null reference by its word.
function plainItem(words) {
  const [, number] = /^ref\.func (\d+)$/.exec(words) ?? [];
  if (number !== undefined) return Number(number);
  return /^ref\.null [^;]*$/.test(words) ? "null" : words;
}
