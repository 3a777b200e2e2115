// Sections 9 to 11 of the paper, as far as a reader needs them: the leaf, survey, reading, the profile, the index, marks and listing.
// Fields are BigInts; places and lengths, which count bytes of an array, are Numbers.

class Torn extends Error {}
class Damaged extends Error {
  constructor(fault) {
    super("damaged");
    this.fault = fault;
  }
}

// ---- 9. The fields of a volume in byte order, each judged when its last byte stands.
class Fields {
  constructor(bytes) {
    this.bytes = bytes;
    this.place = 0;
  }
  // The number in the next bytes, little-endian. `judge` answers nothing, or the fault: { refusal, why, .. }.
  take(width, what, judge) {
    const start = this.place;
    if (start + width > this.bytes.length) throw new Torn();
    let n = 0n;
    for (let i = width - 1; i >= 0; i -= 1) n = (n << 8n) | BigInt(this.bytes[start + i]);
    const fault = judge(n);
    if (fault) throw new Damaged({ place: start, field: what, ...fault });
    this.place += width;
    return n;
  }
  ranged(width, what, refusal, least, most) {
    return this.take(width, what, (n) => !within(least, n, most) && { refusal, why: `${n}; it is ${least} to ${most}` });
  }
  // A section: its count, then so many fields.
  section(what, refusal, least, most, one) {
    const n = this.ranged(2, `${what} count`, refusal, least, most), values = [];
    for (let i = 0n; i < n; i += 1n) values.push(one(`${what} ${i + 1n}`, values));
    return values;
  }
}

const judgeForm = (before) => (n) => {
  if (n !== C.PLAIN_FORM && n !== C.SAMPLE_FORM) return { refusal: 2, why: `${n}; it is ${C.PLAIN_FORM} or ${C.SAMPLE_FORM}` };
  return n === C.PLAIN_FORM && before === C.SAMPLE_FORM && { refusal: 13, why: `${n}, and the record before has form ${before}` };
};
const judgeDay = (before) => (n) => n < before && { refusal: 3, why: `${n}; the record before has day ${before}` };
const judgeChance = (before) => (n) => {
  if (!within(C.CHANCE_LEAST, n, C.CHANCE_MOST)) return { refusal: 5, why: `${n}; it is ${C.CHANCE_LEAST} to ${C.CHANCE_MOST}` };
  return before !== undefined && n <= before && { refusal: 5, why: `${n}; it is above the chance before it, ${before}` };
};

// The fields of the next leaf up to its limit count, the leaf before being `last`.
function leafHead(fields, last) {
  const start = fields.place;
  const form = fields.take(2, "form", judgeForm(last.form));
  const day = fields.take(2, "day", judgeDay(last.day));
  const letter = (what) => fields.ranged(1, what.replace("name", "byte of the name,"), 4, C.BYTE_LEAST, C.BYTE_MOST);
  const name = fields.section("name", 4, C.NAME_LEAST, C.NAME_MOST, letter);
  const chance = (what, before) => fields.take(4, what, judgeChance(before.at(-1)));
  const chances = fields.section("chance", 5, C.CHANCES_LEAST, C.CHANCES_MOST, chance);
  const time = (what) => fields.ranged(4, what, 6, C.TICKS_LEAST, C.TICKS_MOST);
  const ticks = fields.section("time", 6, C.TIMES_LEAST, C.TIMES_MOST, time);
  const wanted = BigInt(chances.length);
  fields.take(2, "limit count", (n) => n !== wanted && { refusal: 7, why: `${n}; there are ${wanted} chances` });
  return { start, form, day, name: String.fromCharCode(...name.map(Number)), chances, ticks, ...meanAndSpread(form, ticks) };
}

// A leaf, its limits worked again; it yields before each of them.
function* leafSteps(fields, last, worked) {
  const leaf = { ...leafHead(fields, last), limits: [] };
  for (const [i, chance] of leaf.chances.entries()) {
    yield fields.place;
    const again = limitFrom(leaf.mean, leaf.spread, quantileAt(chance));
    const judge = (stored) => {
      worked.limits += 1;
      return stored !== again && { refusal: 7, why: "its bits are not those worked out", stored, again, chance, leaf };
    };
    leaf.limits.push(fields.take(8, `limit ${i + 1}`, judge));
  }
  leaf.length = fields.place - leaf.start;
  return leaf;
}

// ---- 10. The profile
function profileFault(leaf) {
  const { form, chances, ticks } = leaf;
  if (form !== C.SAMPLE_FORM) return `form ${form}; the profile has form ${C.SAMPLE_FORM}`;
  if (ticks.length < C.PROFILE_TIMES) return `${ticks.length} times; the profile has ${C.PROFILE_TIMES} or more`;
  const same = chances.length === C.PROFILE_CHANCES.length && chances.every((c, i) => c === C.PROFILE_CHANCES[i]);
  return same ? "" : `the chances ${chances.join(", ")}; the profile has ${C.PROFILE_CHANCES.join(", ")}`;
}

// ---- 10. Survey of the first `length` bytes of some memory. It yields a place before each limit is worked out, and answers
// { state: "whole" or "torn", leaves, kept, limits } or { state: "damaged", refusal, place, field, why, start, leaves, limits, .. }.
function* surveySteps(memory, length, profile) {
  const leaves = [], worked = { limits: 0 };
  const damaged = (fault) => ({ state: "damaged", start: 0, leaves, limits: worked.limits, ...fault });
  if (length > C.VOLUME_MOST || length > memory.length) {
    return damaged({ refusal: 1, place: 0, field: "length", why: `${length}; it is at most ${C.VOLUME_MOST}` });
  }
  const fields = new Fields(memory.subarray(0, length));
  let last = { form: 0n, day: 0n }, start = 0;
  try {
    while (fields.place < length) {
      start = fields.place;
      const leaf = yield* leafSteps(fields, last, worked);
      const why = profile ? profileFault(leaf) : "";
      if (why) throw new Damaged({ refusal: 19, place: start, field: "the whole record", why, leaf });
      leaves.push(leaf);
      last = leaf;
    }
    return { state: "whole", leaves, kept: length, limits: worked.limits };
  } catch (end) {
    if (end instanceof Torn) return { state: "torn", leaves, kept: start, limits: worked.limits };
    if (end instanceof Damaged) return damaged({ start, ...end.fault });
    throw end;
  }
}
function survey(memory, length = memory.length, profile = false) {
  const steps = surveySteps(memory, length, profile);
  for (;;) {
    const step = steps.next();
    if (step.done) return step.value;
  }
}

// ---- 10. Reading leaf i of what survey answered: { leaf } or { refusal }
function reading(seen, i) {
  if (seen.state === "damaged") return { refusal: seen.refusal };
  return i < seen.leaves.length ? { leaf: seen.leaves[i] } : { refusal: 10 };
}

// ---- 10. The index. Names are ASCII, so that strings compare as their bytes do.
function lastLeaves(leaves) {
  const last = new Map(leaves.map((leaf) => [leaf.name, leaf]));
  return [...last.values()].sort((a, b) => (a.name < b.name ? -1 : 1));
}
const little = (n, width) => Array.from({ length: width }, (_, i) => (n >> (8 * i)) & 255);
function indexOf(leaves) {
  const entries = lastLeaves(leaves), bytes = little(entries.length, 2);
  const letters = (name) => Array.from(name, (letter) => letter.charCodeAt(0));
  for (const { name, start } of entries) bytes.push(...little(name.length, 2), ...letters(name), ...little(start, 4));
  return bytes;
}
const begins = (memory, bytes) => memory.length >= bytes.length && bytes.every((b, i) => memory[i] === b);

// ---- 11. Marks and listing
function markOf(leaf) {
  if (leaf.ticks.length < C.FEW) return "S";
  return leaf.ticks.every((t) => t === leaf.ticks[0]) ? "F" : "N";
}
function leafLine(leaf) {
  const limits = leaf.chances.map((c, i) => `${c}:${hex(leaf.limits[i])}`);
  return [leaf.name, leaf.day, markOf(leaf), hex(leaf.mean), hex(leaf.spread), ...limits].join(" ");
}
const endLine = (seen) => (seen.state === "damaged" ? `damaged ${seen.refusal} ${seen.place}` : `${seen.state} ${seen.leaves.length} ${seen.kept}`);
function listingOf(seen) {
  const lines = seen.state === "damaged" ? [] : seen.leaves.map(leafLine);
  return [...lines, endLine(seen)].map((line) => line + "\n").join("");
}
