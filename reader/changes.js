// What changed from one release to another: of each name its last record up to a day of a volume, beside that up to another day, or of another volume.

const changesView = { before: "", after: "", chance: "1000" };

// A release is a file and a day: the leaves of that file up to the day.
function releases() {
  const standing = files.filter(({ kind, seen }) => kind === "volume" && seen && seen.state !== "damaged");
  const daysOf = (file) => [...new Set(file.seen.leaves.map(({ day }) => day))];
  return standing.flatMap((file) => daysOf(file).map((day) => ({ value: `${file.number}:${day}`, file, day, text: `${titleOf(file)}, up to ${dateOf(day)}` })));
}
// Unless two releases are chosen that stand: the last of this file, and the one before it or the last of another file.
function chooseReleases(all, file) {
  const own = all.filter((one) => one.file === file), known = (value) => all.some((one) => one.value === value);
  if (known(changesView.after) && known(changesView.before)) return;
  changesView.after = own.at(-1).value;
  changesView.before = (own.at(-2) ?? all.findLast((one) => one.file !== file)).value;
}
function drawChanges(file) {
  const all = releases(), options = all.map(({ value, text }) => [value, text]), place = made("div");
  if (all.length < 2) return [made("p", {}, "There is one release here. With a second volume, or records of another day, the two can be compared.")];
  chooseReleases(all, file);
  const leaves = [...new Set(all.map((one) => one.file))].flatMap((one) => one.seen.leaves);
  const chances = chanceOptions(leaves).filter(([value]) => value !== "all");
  if (!chances.some(([value]) => value === changesView.chance)) changesView.chance = "1000";
  const find = (value) => all.find((one) => one.value === value);
  const fill = () => place.replaceChildren(...changesTable(find(changesView.before), find(changesView.after)));
  const pick = (key, list) => choice(list, changesView[key], (event) => {
    changesView[key] = event.target.value;
    fill();
  }, { id: `changes-${key}` });
  fill();
  return [
    made("p", { class: "controls row" }, labelled("Before", pick("before", options)), labelled("After", pick("after", options)),
      labelled("Slots at", pick("chance", chances))),
    place,
    made("p", { class: "note" }, "Of each name the last record up to that day. Limits are rounded up, means and spreads to the nearest hundredth of a "
      + "millisecond; a change is that of the figures shown."),
  ];
}

// ---- The table, and what it says in a sentence
const CHANGE_HEADS = ["Limit before, ms", "After, ms", "Change", "Mean, change", "Spread, change"];
function changesTable(before, after) {
  const standing = (one) => upTo(one.file.seen.leaves, one.day);
  const rows = changesOf(standing(before), standing(after), BigInt(changesView.chance));
  const heads = [...["Name", "Before", "After"].map((text) => head(text)), ...CHANGE_HEADS.map((text) => head(text, "number"))];
  return [made("p", { id: "summary" }, summaryOf(rows)), table("what changed", heads, rows.map(changeLine), { class: "slots changes", id: "changes" })];
}
function changeLine({ name, before, after, what }) {
  const same = what === "same record";
  return made("tr", { class: same ? "same" : undefined },
    made("th", { scope: "row", class: "name" }, name),
    cell(before ? before.date : "none", "", "before"),
    cell(same ? "the same record" : after ? after.date : "none", "", "after"),
    cell(shownMs(before?.limits[0]), "number", "limit before, ms"),
    cell(shownMs(after?.limits[0]), "number limit", "limit after, ms"),
    changeCell(before?.limits[0], after?.limits[0], "change, ms"),
    changeCell(before?.mean, after?.mean, "mean, change"),
    changeCell(before?.spread, after?.spread, "spread, change"));
}
const isFigure = (ticks) => typeof ticks === "bigint";
function changeCell(old, now, label) {
  if (!isFigure(old) || !isFigure(now)) return cell("\u2013", "number", label);
  const difference = now - old, kind = difference > 0n ? "longer" : difference < 0n ? "shorter" : "";
  return cell(`${difference > 0n ? "+" : ""}${milliseconds(difference)}`, `number ${kind}`, label);
}
function summaryOf(rows) {
  const limits = rows.map(({ before, after }) => [before?.limits[0], after?.limits[0]]).filter((two) => two.every(isFigure));
  const longer = limits.filter(([old, now]) => now > old).length, shorter = limits.filter(([old, now]) => now < old).length;
  const words = [`${many(longer, "slot")} longer`, `${grouped(shorter)} shorter`, `${grouped(limits.length - longer - shorter)} as long as before`];
  const number = (kind) => rows.filter(({ what }) => what === kind).length;
  if (number("new") > 0) words.push(many(number("new"), "new name"));
  if (number("gone") > 0) words.push(`${many(number("gone"), "name")} without a record`);
  return words.join(", ") + ".";
}
