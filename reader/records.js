// The records of a name with their picture, one record with every field, a limit with the steps of the paper, and the listing.

const FORMS = { 1: "the spread divides D by n \u00d7 n", 2: "the spread divides D by n \u00d7 (n \u2212 1)" };
const MARKS = { S: "fewer than 8 times", F: "8 times or more, all equal", N: "8 times or more, not all equal" };

// ---- One name
function drawName(seen, name) {
  const leaves = seen.leaves.filter((leaf) => leaf.name === name);
  return [
    made("p", { class: "controls row" }, button("\u2190 All names", () => openView("slots"))),
    made("h3", { id: "opened", tabindex: -1 }, code(name), ` \u2014 ${many(leaves.length, "record")}`),
    made("div", { class: "wide" }, picture(name, leaves)),
    made("p", { class: "note" }, "A dot for each time, in the order in which they stand; a green bar for the mean; a line for the limit at each chance. "
      + "Places are those of the exact values."),
    ...leaves.map((leaf) => recordDetails(seen, leaf, leaves.length === 1)).reverse(),
  ];
}
function picture(name, leaves) {
  const marks = pictureOf(name, leaves).map(([tag, attributes, text]) => drawn(tag, attributes, ...(text === undefined ? [] : [text])));
  const label = `times, means and limits of ${name} over ${many(leaves.length, "record")}; the figures stand in the records below`;
  return drawn("svg", { viewBox: `0 0 ${PLOT.width} ${PLOT.height}`, class: "picture", role: "img", "aria-label": label }, ...marks);
}

// ---- One record, filled when it is opened
function recordDetails(seen, leaf, open) {
  const i = seen.leaves.indexOf(leaf), inside = made("div");
  const fill = () => { if (!inside.hasChildNodes()) inside.replaceChildren(...recordFields(leaf, i, seen.leaves.length)); };
  const words = [`record ${grouped(i)}`, `mark ${markOf(leaf)}`, many(leaf.ticks.length, "time"), `mean ${milliseconds(ticksNearest(leaf.mean))} ms`,
    many(leaf.chances.length, "limit")];
  const summary = made("summary", {}, made("strong", {}, dateOf(leaf.day)), ` \u2014 ${words.join(", ")}`);
  const details = made("details", { class: "record", open, on: { toggle: () => { if (details.open) fill(); } } }, summary, inside);
  if (open) fill();
  return details;
}
function recordFields(leaf, i, n) {
  const bits = (x) => [code(hex(x)), ` exactly ${exact(x)} ticks, to the nearest ${milliseconds(ticksNearest(x))} ms`];
  const ticks = leaf.ticks.map((t) => `${t} (${milliseconds(t)} ms)`).join(", ");
  const rows = [
    row("Record", `${grouped(i)} of ${grouped(n)}, counted from 0; bytes ${grouped(leaf.start)} to ${grouped(leaf.start + leaf.length - 1)}`),
    row("Name", code(leaf.name)),
    row("Form", `${leaf.form}: ${FORMS[leaf.form]}`),
    row("Date", `${dateOf(leaf.day)}, day ${leaf.day}`),
    row("Mark", `${markOf(leaf)}: ${MARKS[markOf(leaf)]}`),
    row("Times", `${many(leaf.ticks.length, "time")}, in ticks: ${ticks}`),
    row("Mean", ...bits(leaf.mean)),
    row("Spread", ...bits(leaf.spread)),
  ];
  return [table("fields of the record", [], rows, { class: "fields" }), limitsTable(leaf, i)];
}

// ---- The limits of a record, and the steps of each
function limitsTable(leaf, i) {
  const heads = [head("Chance, in a million", "number"), head("Bits"), head("Exactly, in ticks"), head("Rounded up, ms", "number"), head("Worked out")];
  return table("limits of the record", heads, leaf.chances.flatMap((chance, k) => limitRows(leaf, i, chance, leaf.limits[k])), { class: "slots limits" });
}
function limitRows(leaf, i, chance, bits) {
  const place = made("td", { colspan: 5 }), steps = made("tr", { class: "steps", hidden: true }, place);
  const click = () => {
    if (!place.hasChildNodes()) place.append(stepsText(i, leaf, chance, bits));
    steps.hidden = !steps.hidden;
    opener.setAttribute("aria-expanded", String(!steps.hidden));
  };
  const opener = button("Steps", click, { "aria-expanded": "false", "aria-label": `steps of the limit at ${chance} in a million` });
  const line = made("tr", {},
    made("th", { scope: "row", class: "number" }, grouped(chance)),
    made("td", { "data-head": "bits" }, code(hex(bits))),
    cell(exact(bits), "exact", "exactly, in ticks"),
    cell(milliseconds(ticksUp(bits)), "number limit", "rounded up, ms"),
    made("td", {}, opener));
  return [line, steps];
}
// The steps as tools/recompute --record prints them.
function stepsText(i, leaf, chance, stored) {
  const stands = stepLine({ section: "9", name: "limit that stands", text: hex(stored) });
  const lines = [`record ${i}, chance ${chance}:`, ...limitSteps(leaf.form, leaf.ticks, chance), stands];
  const label = "each step: its section of the definition, its name there, its value";
  return made("pre", { class: "worked", tabindex: 0, role: "region", "aria-label": label }, lines.join("\n") + "\n");
}

// ---- All records: the listing, and one record by its number
function drawListing(seen) {
  const place = made("div"), told = made("span", { role: "status" });
  const number = made("input", { type: "text", inputmode: "numeric", size: 6, id: "number" });
  const open = (event) => {
    event.preventDefault();
    const i = /^\d{1,9}$/.test(number.value.trim()) ? Number(number.value) : -1, { leaf } = i < 0 ? {} : reading(seen, i);
    const none = `Refusal 10: there is no record ${grouped(i)}; they are counted from 0, and there are ${grouped(seen.leaves.length)}.`;
    told.textContent = leaf ? "" : i < 0 ? "A number is written with digits alone." : none;
    place.replaceChildren(...(leaf ? [recordDetails(seen, leaf, true)] : []));
  };
  return [
    made("form", { class: "controls row", on: { submit: open } },
      labelled("Record, counted from 0:", number), made("button", { type: "submit" }, "Open"), told),
    place,
    made("pre", { id: "listing", tabindex: 0, role: "region", "aria-label": "the listing" }, listingOf(seen)),
    made("p", { class: "note" }, "As the program list prints it: name, day, mark, bits of mean and spread, and for each chance the bits of its limit."),
  ];
}
