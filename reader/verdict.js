// The end state of a file in words: whole, torn, damaged with its first fault, and whether an index is a volume's own.

const MEANING = {
  1: "the volume is too long", 2: "a form that there is not", 13: "form 1 after form 2", 3: "a day before that of the record before",
  4: "the name", 5: "the chances", 6: "the times", 7: "the limits", 19: "the profile for safety controllers",
};
const WITHOUT_OWNER = {
  "index without its volume": "Choose the volume too: only beside it can be said whether the index is its own.",
  "index, the volume is not checked yet": "The volume's check comes first.",
  "index, and the volume is damaged": "A damaged volume has no index.",
  "not own: declined 14": "It is not the index of a volume that is open here. awaqlla index --make makes it again.",
};

function verdict(state, word, ...lines) {
  const texts = lines.filter(Boolean).map((line) => made("p", {}, line));
  return made("div", { class: `verdict ${state}` }, made("p", { class: "word" }, word), ...texts);
}
function workedAgain(limits) {
  if (limits === 0) return "";
  if (limits === 1) return "Its one limit was worked again and has the stored bits.";
  return `All ${grouped(limits)} limits were worked again, and each has the stored bits.`;
}
function standingVerdict({ seen, size }) {
  const { leaves, kept, limits, state } = seen, records = `${many(leaves.length, "record")} in ${many(kept, "byte")}`;
  const profile = at("profile").checked && leaves.length > 0 && "Every record keeps the profile for safety controllers.";
  if (size === 0) return verdict("whole", "Whole, and empty", "The volume has no byte, and so no record.");
  if (state === "whole") return verdict("whole", "Whole", `${records}. ${workedAgain(limits)}`, profile);
  const cut = `${many(size - kept, "byte")} of a record that was not written to its end. That is no record, and the next append writes over it.`;
  if (leaves.length === 0) return verdict("torn", "Torn end", `No whole record: only ${cut}`);
  return verdict("torn", "Torn end", `${records}, and behind them ${cut}`, `The records before it stand. ${workedAgain(limits)}`, profile);
}

// ---- A fault: where it is, what stands there, and of a limit how it is worked out
function bitsBeside(x, other) {
  const against = hex(other);
  const letters = Array.from(hex(x), (letter, i) => (letter === against[i] ? letter : made("mark", {}, letter)));
  return [made("code", { class: "bits" }, ...letters), ` ${decimal(x)} ticks`];
}
function faultRows({ refusal, place, leaf, leaves, start, field, why, stored, again, chance }) {
  const rows = [row("Refusal", `${refusal}: ${MEANING[refusal]}`), row("Place", `byte ${grouped(place)}, counted from 0`)];
  if (refusal !== 1) rows.push(row("Record", `${grouped(leaves.length)}, counted from 0, which starts at byte ${grouped(start)}`));
  if (leaf) rows.push(row("Of", code(leaf.name), `, ${dateOf(leaf.day)}`));
  rows.push(row("Field", field), row("Fault", why));
  if (stored === undefined) return rows;
  const chanceRow = row("Chance", `${grouped(chance)} in a million`);
  return [...rows, chanceRow, row("Stored", ...bitsBeside(stored, again)), row("Worked again", ...bitsBeside(again, stored))];
}
function damage({ seen }) {
  const { refusal, leaves, leaf, chance, stored } = seen, number = leaves.length;
  const trust = refusal === 19 ? "Without the profile the volume may be whole: take the tick away to see."
    : "No figure of this volume is to be trusted, and none is shown.";
  const doubt = refusal === 1 ? "No volume is so long" : refusal < 7 && number === 0 ? "Not even its first record can be read" : "";
  const before = number === 0 ? "" : `The ${many(number, "record")} before it ${number === 1 ? "was" : "were"} read without a fault.`;
  return [
    verdict("damaged", `Damaged ${refusal}`, trust, doubt && `${doubt}: it may be a file of another kind.`),
    made("h3", {}, "The first fault"),
    table("the first fault", [], faultRows(seen), { class: "fields fault" }),
    made("p", { class: "note" }, before),
    ...(stored === undefined ? [] : [made("h3", {}, "How the limit is worked out"), stepsText(number, leaf, chance, stored)]),
  ];
}

// ---- An index
function indexVerdict(file) {
  const { word, owner, length } = indexWords(file);
  if (!owner) return verdict("torn", word[0].toUpperCase() + word.slice(1), WITHOUT_OWNER[word]);
  const names = many(lastLeaves(owner.seen.leaves).length, "name"), behind = file.size - length;
  return verdict("whole", "Own", `It is the index of ${titleOf(owner)}: ${names}, ${many(length, "byte")}.`,
    behind > 0 && `${many(behind, "byte")} behind it are no part of it and are not judged.`);
}
