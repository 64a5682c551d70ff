// Two plans side by side.

// Where one of them is refused there is no summary, and it is said which.
function comparisonOf(summary, ask, plans) {
  if (!summary) return [importsCard(ask, plans)];
  const names = plans.map(plan => plan.summary.name);
  return [countsCard(summary, names), sharedTypesCard(summary, ask, names), imagesCard(summary, plans), segmentsCard(summary, ask, plans), contextsCard(summary, plans), importsCard(ask, plans)];
}

// Data segments of both, side by side by their numbers. Those of modules that an engine moves have
// no image, and passive ones have none either.
function segmentsCard({ segments }, ask, plans) {
  const [one, other] = plans.map(plan => plan.summary.name), label = "data segments of both";
  if (!segments) return card("Data segments of both: none");
  const part = (it, plan) => {
    if (!it) return "none";
    const place = it.memory === null ? "passive" : `memory ${spoken(it.memory)}, at ${it.place}`;
    return [`${count(it.size, "byte")}, ${place} `, lineBytes(plan, it, `data segment ${spoken(it.index)} of ${plan.summary.name}`)];
  };
  const said = ({ differing, first }) => {
    if (differing === null) return cellOf("in one alone", true, false);
    return cellOf(differing ? `${count(differing, "byte differs", "bytes differ")}, the first ${spoken(first)} behind the begin` : "the same bytes", differing > 0, false);
  };
  const row = it => [spoken(it.index), part(it.one, plans[0]), part(it.other, plans[1]), said(it)];
  const draw = rows => table(label, ["#segment", one, other, "from where each begins"], rows.map(row));
  const how = "This page’s script finds the segments, and compares those of one number from their first bytes on.";
  return card("Data segments of both", whosePart(how), listed({ ask }, { label, unit: "data segment", count: segments, question: "segments", draw }));
}

const cellOf = (words, isDifferent, isNumber = true) => el("td", { class: [isNumber && "n", isDifferent && "differs"].filter(Boolean).join(" ") || null }, ...[words].flat());

function countsCard({ counts }, names) {
  const shownAs = it => (typeof it === "number" ? spoken(it) : it.replace("startup_", "").replaceAll("_", " "));
  const rows = counts.map(([name, one, other]) => [name, cellOf(shownAs(one), one !== other), cellOf(shownAs(other), one !== other)]);
  return card("Counts of both", scrolled("counts of both", table("counts of both", ["", `#${names[0]}`, `#${names[1]}`], rows)));
}

function sharedTypesCard({ types, common, onlyOne, onlyOther }, ask, [one, other]) {
  const words = [
    `${count(common, "type")} of ${one} ${common === 1 ? "is a type" : "are types"} of ${other} too, by their interned lists; `,
    `${spoken(onlyOne)} ${isOrAre(onlyOne)} not. Of the types of ${other}, ${spoken(onlyOther)} ${isOrAre(onlyOther)} not in ${one}.`,
  ];
  const row = it => {
    const isDifferent = it.one === null || it.other === null, number = index => (index === null ? "—" : `type ${spoken(index)}`);
    return [cellOf(number(it.one), isDifferent), cellOf(number(it.other), isDifferent), el("code", {}, it.words)];
  };
  const draw = rows => table("types of both", [`#in ${one}`, `#in ${other}`, "what it is"], rows.map(row));
  const whose = whosePart("The planner says the types of each; this page’s script finds those that are equal.");
  return card("Types of both", el("p", {}, ...words), whose, listed({ ask }, { label: "types of both", unit: "row", count: types, question: "differences", draw }));
}

function imagesCard({ images }, plans) {
  if (!images.length) return card("Images of both", el("p", { class: "soft" }, "No memory of either begins as an image."));
  const part = (image, plan) => {
    if (!image) return "none";
    const look = bytesButton(plan, image, `bytes of the image in ${plan.summary.name}`, image.at);
    return [`${count(image.length, "byte")} at ${spoken(image.at)} `, look];
  };
  const said = ({ differing, first }) => {
    const words = differing ? `${count(differing, "byte differs", "bytes differ")}, the first at ${spoken(first)}` : "the same bytes";
    return cellOf(words, differing > 0, false);
  };
  const rows = images.map(it => [`memory ${spoken(it.memory)}`, part(it.one, plans[0]), part(it.other, plans[1]), said(it), relativeCell(it.relative)]);
  const columns = ["memory", plans[0].summary.name, plans[1].summary.name, "difference by address", "from where data begin"];
  const how = "The second difference lays both so that their first bytes that are not zero are at one place.";
  const whose = whosePart("The planner says the images; this page’s script compares them.");
  return card("Images of both", el("p", { class: "soft" }, how), whose, boxed("images of both", table("images of both", columns, rows)));
}

function relativeCell(relative) {
  if (!relative) return "";
  const { differing, first, begins } = relative, [one, other] = begins.map(begin => (begin === null ? "nowhere" : spoken(begin)));
  const words = differing ? `${count(differing, "byte differs", "bytes differ")}, the first ${spoken(first)} behind the begin` : "the same bytes";
  return cellOf(`${words}; data begin at ${one === other ? one : `${one} and ${other}`}`, differing > 0, false);
}

function contextsCard({ regions }, plans) {
  const row = ({ name, line, one, other }) => {
    const pair = i => [cellOf(spoken(one[i]), one[i] !== other[i]), cellOf(spoken(other[i]), one[i] !== other[i])];
    return [button(name, () => showOrigin(plans[0], "region", line), { class: "plain" }), ...pair(0), ...pair(1)];
  };
  const [one, other] = plans.map(plan => plan.summary.name);
  const columns = ["region", `#begins in ${one}`, `#begins in ${other}`, `#bytes in ${one}`, `#bytes in ${other}`];
  return card(
    "Contexts of both",
    el("p", { class: "soft" }, "Marked where they differ."),
    scrolled("contexts of both", table("contexts of both", columns, regions.map(row))),
  );
}
