// What a person is shown of a volume, beside the paper: dates, milliseconds, exact decimals, slots, what changed, a table as CSV.
// Every figure is worked out in whole numbers; a tick is ten microseconds.

// ---- Dates. Day 0 is 1 January 2000; a year that 4 divides has 366 days, but one that 100 divides and 400 does not.
const isLeap = (year) => year % 4 === 0 && (year % 100 !== 0 || year % 400 === 0);
function dateOf(day) {
  let year = 2000, rest = Number(day), month = 0;
  for (; rest >= (isLeap(year) ? 366 : 365); year += 1) rest -= isLeap(year) ? 366 : 365;
  const months = [31, isLeap(year) ? 29 : 28, 31, 30, 31, 30, 31, 31, 30, 31, 30, 31];
  for (; rest >= months[month]; month += 1) rest -= months[month];
  return [year, month + 1, rest + 1].map((n) => String(n).padStart(2, "0")).join("-");
}

// ---- Whole ticks of a finite double, and ticks as milliseconds. A fraction is { n, d }, d > 0.
const floor = ({ n, d }) => (n < 0n && n % d !== 0n ? n / d - 1n : n / d);
const ceiling = ({ n, d }) => -floor({ n: -n, d });
const nearest = ({ n, d }) => floor({ n: 2n * n + d, d: 2n * d });
const signed = (x) => (x >= SIGN ? -part(x) : part(x));
function fractionOf(x) {
  const up = power(x) - 1074n;
  return up >= 0n ? { n: signed(x) << up, d: 1n } : { n: signed(x), d: 1n << -up };
}
const ticksUp = (x) => ceiling(fractionOf(x));
const ticksNearest = (x) => nearest(fractionOf(x));
const sizeOf = (n) => (n < 0n ? -n : n);
const milliseconds = (ticks) => `${ticks < 0n ? "-" : ""}${sizeOf(ticks) / 100n}.${String(sizeOf(ticks) % 100n).padStart(2, "0")}`;

// ---- The exact decimal of a finite double: m / 2^k is m * 5^k / 10^k.
function exact(x) {
  const { n, d } = fractionOf(x), k = d.toString(2).length - 1;
  const digits = String(sizeOf(n) * 5n ** BigInt(k)).padStart(k + 1, "0");
  const behind = digits.slice(digits.length - k).replace(/0+$/, "");
  return (x >= SIGN ? "-" : "") + digits.slice(0, digits.length - k) + (k > 0 && behind ? "." + behind : "");
}
// The same where it is short; of others, which only a fault can hold, four digits and a power of ten.
function decimal(x) {
  if (isNan(x)) return "not a number";
  if (isInfinite(x)) return "infinite";
  const text = exact(x), [whole, behind = ""] = text.replace("-", "").split(".");
  if (text.length <= 60) return text;
  const all = whole + behind, first = all.search(/[1-9]/);
  return `about ${x >= SIGN ? "-" : ""}${all[first]}.${all.slice(first + 1, first + 4)} \u00d7 10^${whole.length - 1 - first}`;
}

// ---- Slots: of each name the last leaf, by name, with the limits at some chances rounded up
const limitAt = (leaf, chance) => leaf.limits[leaf.chances.indexOf(chance)];
function slotOf(leaf, chances) {
  const figures = { date: dateOf(leaf.day), mark: markOf(leaf), count: leaf.ticks.length, mean: ticksNearest(leaf.mean), spread: ticksNearest(leaf.spread) };
  const limits = chances.map((c) => limitAt(leaf, c)).map((bits) => (bits === undefined ? null : ticksUp(bits)));
  return { leaf, name: leaf.name, ...figures, limits };
}
const slotsOf = (leaves, chances) => lastLeaves(leaves).map((leaf) => slotOf(leaf, chances));
const chancesOf = (leaves) => [...new Set(leaves.flatMap((leaf) => leaf.chances))].sort((a, b) => (a < b ? -1 : 1));

// ---- What changed between two states of slots: a row for each name that either has. A state is the leaves that stood then.
const upTo = (leaves, day) => leaves.filter((leaf) => leaf.day <= day);
function changesOf(before, after, chance) {
  const rows = new Map();
  const put = (side) => (leaf) => rows.set(leaf.name, { name: leaf.name, ...rows.get(leaf.name), [side]: slotOf(leaf, [chance]) });
  lastLeaves(before).forEach(put("before"));
  lastLeaves(after).forEach(put("after"));
  return [...rows.values()].sort((a, b) => (a.name < b.name ? -1 : 1)).map((row) => ({ ...row, what: changeOf(row) }));
}
function changeOf({ before, after }) {
  if (!before) return "new";
  if (!after) return "gone";
  const all = ({ leaf }) => `${leafLine(leaf)} ${leaf.form} ${leaf.ticks.join()}`;
  return all(before) === all(after) ? "same record" : "new record";
}

// ---- CSV (RFC 4180): numbers as they are, all else in quotes. What a spreadsheet would take for a formula has an apostrophe before it.
function csvCell(text) {
  if (/^(-?\d+(\.\d+)?)?$/.test(text)) return text;
  return `"${/^[=+\-@]/.test(text) ? "'" : ""}${text.replace(/"/g, '""')}"`;
}
const csv = (rows) => rows.map((cells) => cells.map((cell) => csvCell(String(cell))).join(",") + "\r\n").join("");

// ---- Words
const grouped = (n) => String(n).replace(/\B(?=(\d{3})+$)/g, ",");
const many = (n, one, more = one + "s") => `${grouped(n)} ${Number(n) === 1 ? one : more}`;
