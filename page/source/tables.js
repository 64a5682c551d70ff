// The tables of a plan.

function tablesCard(plan) {
  const { entities, counts } = plan.summary;
  if (!entities.tables) return card("Tables: none");
  const draw = rows => el("div", {}, ...rows.map(row => tablePart(plan, row)));
  const all = listed(plan, { label: "tables", unit: "table", count: entities.tables, size: 10, question: "tables", draw, isBoxed: false });
  const whose = whosePart("The planner says all of this; this page’s script makes names readable.");
  return card(`Tables: ${spoken(entities.tables)}`, whose, all, counts.elements ? elementsPart(plan, counts.elements) : null);
}

function tablePart(plan, row) {
  const words = joined([row.isImported && "imported", tableWords(row), ...row.names]);
  const part = el("div", {}, el("h3", {}, `Table ${spoken(row.index)} `, originButton(plan, "table", row.index)), el("p", { class: "soft" }, words));
  if (!row.cells) return part;
  const draw = cells => el("ol", { class: "cells", start: cells[0]?.place ?? 0 }, ...cells.map(cellPart));
  part.append(
    el("p", {}, `It begins as an image of ${count(row.cells, "cell")}, with ${count(row.full, "function")}:`),
    listed(plan, { label: `cells of table ${spoken(row.index)}`, unit: "cell", count: row.cells, size: 250, question: "cells", words: { table: row.index }, draw }),
  );
  return part;
}

function cellPart(cell) {
  const isNull = cell.function === null, name = cell.name ? `: ${cell.name}` : "";
  return el("li", { class: isNull ? "cell" : "cell full", title: `cell ${spoken(cell.place)}${name}` }, isNull ? "null" : spoken(cell.function));
}

function elementsPart(plan, elements) {
  const label = "element segments that startup writes";
  const row = it => [`segment ${spoken(it.index)}`, spoken(it.table), placeWords(it.place), spoken(it.count), originButton(plan, "elements", it.index)];
  const draw = rows => table(label, ["segment", "#table", "at", "#elements", "more"], rows.map(row));
  return el(
    "div",
    {},
    el("h3", {}, "Element segments that startup writes, in order"),
    listed(plan, { label, unit: "segment", count: elements, question: "elements", draw }),
  );
}
