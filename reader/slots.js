// The planner's view: the slots of a volume's names at a chance, to be sorted, filtered and copied.

const slotsView = { chance: "1000", filter: "", sort: "name", down: false };
const COLUMNS = [["name", "Name"], ["date", "Date"], ["mark", "Mark"],
  ["count", "Times", "number"], ["mean", "Mean, ms", "number"], ["spread", "Spread, ms", "number"]];

const SLOTS_NOTE = "For each name its last record. A limit is rounded up to a whole hundredth of a millisecond, so that a slot as long is never "
  + "shorter than the limit; mean and spread are rounded to the nearest. A dash stands where the record has no limit at the chance. "
  + "Marks: S fewer than 8 times, F 8 or more and all equal, N others.";

// The chances to choose from: 1,000 in a million, those of the last records, and all of them where they are few.
function chanceOptions(leaves) {
  const own = chancesOf(lastLeaves(leaves)), all = own.includes(1000n) ? own : [...own, 1000n].sort((a, b) => (a < b ? -1 : 1));
  const options = all.map((c) => [String(c), `${grouped(c)} in a million`]);
  return own.length <= 8 ? [...options, ["all", "every chance"]] : options;
}
function drawSlots(seen) {
  const options = chanceOptions(seen.leaves), place = made("div"), told = made("span", { role: "status", class: "soft" });
  if (!options.some(([value]) => value === slotsView.chance)) slotsView.chance = "1000";
  const fill = () => place.replaceChildren(...slotsTable(seen.leaves, fill));
  const set = (key) => (event) => {
    slotsView[key] = event.target.value;
    fill();
  };
  const controls = made("p", { class: "controls row" },
    labelled("Slots at", choice(options, slotsView.chance, set("chance"), { id: "chance" })),
    labelled("Names with", made("input", { type: "search", value: slotsView.filter, size: 14, on: { input: set("filter") } })),
    button("Copy as CSV", () => copy(csv(slotsCsv(seen.leaves)), told)), told);
  fill();
  return [controls, place, made("p", { class: "note" }, SLOTS_NOTE)];
}
const slotChances = (leaves) => (slotsView.chance === "all" ? chancesOf(lastLeaves(leaves)) : [BigInt(slotsView.chance)]);

// The rows as they are asked for. A slot without a limit comes before all others.
function slotRows(leaves) {
  const { filter, sort, down } = slotsView, wanted = filter.toLowerCase();
  const key = (slot) => (sort.startsWith("limit") ? slot.limits[Number(sort.slice(5))] ?? null : slot[sort]);
  const order = (a, b) => {
    const x = key(a), y = key(b);
    return x === y ? 0 : x === null || (y !== null && x < y) ? -1 : 1;
  };
  const rows = slotsOf(leaves, slotChances(leaves)).filter((slot) => slot.name.toLowerCase().includes(wanted)).sort(order);
  return down ? rows.reverse() : rows;
}
const shownMs = (ticks) => (ticks === null || ticks === undefined ? "\u2013" : milliseconds(ticks));
function slotsTable(leaves, again) {
  const chances = slotChances(leaves), rows = slotRows(leaves), alone = chances.length === 1;
  const limitHeads = chances.map((c, i) => [`limit${i}`, alone ? "Limit, ms, rounded up" : `At ${grouped(c)}, ms`, "number"]);
  const heads = [...COLUMNS, ...limitHeads].map(([key, text, kind]) => sortHead(key, text, kind, again));
  const labels = chances.map((c) => (alone ? "limit, ms" : `at ${grouped(c)}`));
  const shownTable = table("slots", heads, rows.map((slot) => slotLine(slot, labels)), { class: "slots", id: "slots" });
  return rows.length > 0 ? [shownTable] : [shownTable, made("p", {}, "No name has that in it.")];
}
function slotLine(slot, labels) {
  return made("tr", {},
    made("th", { scope: "row", class: "name" }, button(slot.name, () => openName(slot.name), { class: "link", title: "its picture and its records" })),
    cell(slot.date, "", "date"),
    cell(slot.mark, "", "mark"),
    cell(String(slot.count), "number", "times"),
    cell(shownMs(slot.mean), "number", "mean, ms"),
    cell(shownMs(slot.spread), "number", "spread, ms"),
    ...slot.limits.map((ticks, i) => cell(shownMs(ticks), "number limit", labels[i])));
}
function sortHead(key, text, kind, again) {
  const { sort, down } = slotsView, mine = sort === key;
  const click = () => {
    slotsView.down = mine && !down;
    slotsView.sort = key;
    again();
    at("slots").querySelector(`[data-key="${key}"]`).focus();
  };
  const arrow = mine ? made("span", { "aria-hidden": "true" }, down ? " \u25be" : " \u25b4") : "";
  const order = mine ? (down ? "descending" : "ascending") : "none";
  const opener = made("button", { type: "button", class: "sort", "data-key": key, on: { click } }, text, arrow);
  return made("th", { scope: "col", class: kind, "aria-sort": order }, opener);
}
function slotsCsv(leaves) {
  const chances = slotChances(leaves), ms = (ticks) => (ticks === null ? "" : milliseconds(ticks));
  const heads = ["name", "date", "mark", "times", "mean in ms", "spread in ms", ...chances.map((c) => `limit at ${c} in a million, in ms, rounded up`)];
  const line = (slot) => [slot.name, slot.date, slot.mark, slot.count, ms(slot.mean), ms(slot.spread), ...slot.limits.map(ms)];
  return [heads, ...slotRows(leaves).map(line)];
}
