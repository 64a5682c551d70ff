// The context of a plan, and its types.

// Each of these colours has white words on it.
const COLOURS = [
  "#5a6472", "#1f63a8", "#2f6f3e", "#8a5a00", "#7a3f98", "#a3362c", "#1d6f75", "#6a4b35",
  "#a03a6f", "#4a5aa8", "#5f6b00", "#8a4a1f", "#33691e", "#6b3fa0", "#00695c",
];

function contextCard(plan) {
  const { regions, context } = plan.summary;
  const colourOf = region => COLOURS[regions.indexOf(region) % COLOURS.length], show = region => showOrigin(plan, "region", region.line);
  const part = region => {
    const words = `${region.name}: ${count(region.size, "byte")} from ${spoken(region.begin)} on`;
    const style = `flex: ${region.size} 1 0; background: ${colourOf(region)}`;
    return barButton(region.name, () => show(region), { style, title: words, "aria-label": words });
  };
  const row = region => {
    const key = el("span", { class: "key", style: `background: ${region.size ? colourOf(region) : "transparent"}` });
    return [[key, button(region.name, () => show(region), { class: "plain" })], spoken(region.begin), spoken(region.size)];
  };
  const parts = regions.filter(region => region.size > 0).map(part);
  return card(
    `Instance context: ${count(context, "byte")}`,
    el("p", { class: "soft" }, "Compiled code finds everything of an instance in these bytes, one region after another."),
    whosePart("The planner says all of this."),
    el("div", { class: "bar", role: "group", "aria-label": "the regions of the context, from its first byte on" }, ...parts),
    el("div", { class: "ends" }, el("span", {}, "0"), el("span", {}, spoken(context))),
    scrolled("regions of the context", table("regions of the context", ["region", "#begins", "#bytes"], regions.map(row))),
  );
}

function typesCard(plan) {
  const { types, counts } = plan.summary;
  const row = it => [
    it.isFirst ? spoken(it.group) : "",
    spoken(it.index),
    el("code", {}, it.words),
    it.declaredCount ? declaredWords(it) : el("span", { class: "soft unbroken" }, "added by the planner"),
    spoken(it.functions),
    originButton(plan, "type", it.index),
  ];
  const draw = rows => table("interned types", ["#group", "#type", "what it is", "declared as", "#functions", "more"], rows.map(row));
  return card(
    `Types: ${spoken(counts.declared)} declared, ${spoken(types)} interned`,
    el("p", { class: "soft" }, `Declared types that are equal have one interned type. They are in ${count(counts.groups, "group")}.`),
    whosePart("The planner says all of this."),
    listed(plan, { label: "interned types", unit: "type", count: types, question: "types", draw }),
  );
}

function declaredWords({ declared, declaredCount }) {
  const more = declaredCount - declared.length;
  return declared.map(index => spoken(index)).join(", ") + (more > 0 ? ` and ${spoken(more)} more` : "");
}
