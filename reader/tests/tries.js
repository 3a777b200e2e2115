// Tries the page's reader R on the cases of cases.py, in node and in the browser: for each topic how many were tried, and what differs.
// The operations are also held to section 3.1's rule word for word, and to the doubles of the machine that runs this.
function tries(R, given) {
  const topics = new Map();
  function same(topic, of, got, want) {
    const t = topics.get(topic) ?? { tried: 0, wrong: [] };
    topics.set(topic, t);
    t.tried += 1;
    if (got !== want) t.wrong.push(`${of}: ${got}, and not ${want}`);
  }
  const B = (text) => BigInt("0x" + text), bytes = (text) => Uint8Array.from(text.match(/../g) ?? [], (two) => parseInt(two, 16));
  const told = (answer) => (answer.refusal ? `refusal ${answer.refusal}` : [answer.mean, answer.spread, answer.e, answer.limit].map(R.hex).join(" "));

  for (const one of R.EXAMPLES) same("numbers to try of section 13", one.slice(0, -1).join(" "), R.attempt(one), one.at(-1));
  for (const [what, ...rest] of given.starred) {
    const want = rest.pop();
    const got = what === "index" ? String(R.reduction(0x3ff0000000000000n + B(rest[0]) - (1n << 52n)).i)
      : what === "limit" ? R.hex(R.limit(BigInt(rest[0]), rest[1].split(", ").map(BigInt), BigInt(rest[2])).limit) : R.hex(R[what](B(rest[0])));
    same("starred cases", [what, ...rest].join(" "), got, want);
  }
  for (const line of given.quantiles.trim().split("\n")) {
    const [x, p] = line.split(" ");
    same("stored quantiles", x, R.hex(R.quantile(B(x))), p);
  }
  for (const [form, ticks, chance, want] of given.limits) {
    same("limits of both forms", `${form} ${chance} ${ticks}`, told(R.limit(BigInt(form), ticks.map(BigInt), BigInt(chance))), want);
  }

  remembering(R, same);
  ways(R, given.ways, same, B);
  const w = given.worked, lines = (form) => R.limitSteps(form, w.times.map(BigInt), BigInt(w.chance));
  const plain = w[2].map((line, i) => { const k = w.places.indexOf(i); return k < 0 ? line : w.differing[k]; });
  for (const [form, want] of [[2n, w[2]], [1n, plain]]) want.forEach((line, i) => same("lines of section 12", `form ${form}, line ${i}`, lines(form)[i], line));

  for (const [name, hex, listing] of given.volumes) same("volumes listed", name, R.listingOf(R.survey(bytes(hex))), listing);
  for (const [hex, i, want] of given.steps) {
    const leaf = R.survey(bytes(hex)).leaves[i];
    const steps = (c) => R.limitSteps(leaf.form, leaf.ticks, c).join("\n");
    const blocks = leaf.chances.map((c, k) => `record ${i}, chance ${c}:\n${steps(c)}\n9    limit that stands  ${R.hex(leaf.limits[k])}\n`);
    const first = `record ${i}: ${leaf.name}, form ${leaf.form}, day ${leaf.day}, ${leaf.ticks.length} times\n`;
    same("records' steps, beside tools/recompute", `record ${i}`, first + blocks.join(""), want);
  }
  for (const [hex, index, own] of given.indexes) {
    const made = R.indexOf(R.survey(bytes(hex)).leaves), memory = bytes(index);
    same("indexes, own and nearly right", index, made.length <= memory.length && made.every((b, i) => b === memory[i]), own);
  }
  for (const [x, want] of given.decimals) same("exact decimals", x, R.exact(B(x)), want);
  for (const [day, want] of given.dates) same("dates", day, R.dateOf(BigInt(day)), want);
  journal(R, given.journal, same);
  pictures(R, given.pictures, same, bytes);
  operations(R, same);
  return [...topics].map(([topic, { tried, wrong }]) => ({ topic, tried, wrong: wrong.slice(0, 5), differing: wrong.length }));
}

// Quantiles that are remembered: chances that are alike in their low digits, each asked for again behind the others.
function remembering(R, same) {
  const view = new DataView(new ArrayBuffer(8)), bits = (n) => { view.setFloat64(0, n); return view.getBigUint64(0); };
  const chances = [1, 1000, 500000].flatMap((c) => [c, c + 256, c + 65536, c + 131072]);
  for (const c of [...chances, ...chances]) same("quantiles asked for again", c, R.limit(2n, [90n, 110n], BigInt(c)).e, R.quantile(R.over(bits(c), bits(500000))));
}

// The way that an argument takes, as section 13 names it: by what the working notes, and by what the core chooses.
const SEEN = {
  central: ["7.1", "A"], tail: ["7.4", "X"], middle: ["7.3", "K"], taylor: ["7.2", "Z"],
  "short rational": ["7.4", "Q4"], "long rational": ["7.4", "G6"],
};
function ways(R, { quantile, inverse }, same, B) {
  for (const [x, way] of quantile) {
    const steps = R.stepsOf(() => R.quantile(B(x))), has = ([section, name]) => steps.some((step) => step.section === section && step.name === name);
    for (const [word, step] of Object.entries(SEEN)) if (way.includes(word)) same("ways of section 13", `${x}, ${way}`, has(step), true);
    if (way.includes("rational")) same("ways of section 13", `${x}, ${way}`, has(SEEN.central), false);
  }
  for (const [x, way] of inverse) {
    const name = /taylor4|taylor7|middle|tail/.exec(way);
    if (name) same("ways of section 13", `${x}, ${way}`, R.wayOf({ low: 0n, high: B(x) & ((1n << 63n) - 1n) }).name, name[0]);
  }
}

// The stored journal cases: lines that set eight bytes of the memory, and calls of survey and of reading with their answers.
function journal(R, text, same) {
  const memory = new Uint8Array(1 << 18), n = (word) => (word.length > 6 && /^[1-9a-f]/.test(word) ? Infinity : parseInt(word, 16));
  let version = 0, last = "", seen = null;
  for (const line of text.trim().split("\n")) {
    const [letter, size, length, i, a, b, c] = line.split(" "), kind = letter.toLowerCase();
    if (kind === "b") {
      for (let k = 0; k < 8; k += 1) memory[n(size) + k] = parseInt(length.slice(2 * k, 2 * k + 2), 16);
      version += 1;
      continue;
    }
    const key = [version, size, length, letter === kind].join(" ");
    if (key !== last) seen = R.survey(memory.subarray(0, n(size)), n(length), letter !== kind);
    last = key;
    const { leaf, refusal } = R.reading(seen, n(i));
    const numbers = kind === "s" ? (seen.state === "damaged" ? [2, seen.refusal, seen.place] : [seen.state === "torn" ? 1 : 0, seen.leaves.length, seen.kept])
      : kind === "p" ? [0, leaf ? leaf.start : 0, leaf ? leaf.length : 0] : [0, leaf ? R.markOf(leaf).charCodeAt(0) : refusal, 0];
    same("stored journal cases", line, numbers.map((x) => x.toString(16)).join(" "), [a, b, c].map((word) => parseInt(word, 16).toString(16)).join(" "));
  }
}

// The marks of a picture: the same tags, texts and data, and places within a thousandth.
function pictures(R, given, same, bytes) {
  const near = (x, y) => x === y || Math.abs(Number(x) - Number(y)) < 0.0015;
  for (const [hex, name, marks] of given) {
    const mine = R.pictureOf(name, R.survey(bytes(hex)).leaves.filter((leaf) => leaf.name === name));
    same("pictures' marks, beside tools/plot", name, mine.length, marks.length);
    mine.forEach(([tag, attributes, text], i) => {
      const [wantTag, want, wantText] = marks[i], keys = Object.keys(want).filter((key) => /^(data-|[xyr]|c[xy])/.test(key));
      const differs = keys.find((key) => !near(String(attributes[key]), want[key]));
      const mark = (t, words, values) => `${t} ${words ?? null} ${differs && values[differs]}`;
      same("pictures' marks, beside tools/plot", `${name}, mark ${i}, ${differs}`, mark(tag, text, attributes), mark(wantTag, wantText, want));
    });
  }
}

// The rounded operations on patterns of all sizes and near ones: beside the machine's, and beside section 3.1 word for word.
function operations(R, same) {
  const view = new DataView(new ArrayBuffer(8)), number = (b) => { view.setBigUint64(0, b); return view.getFloat64(0); };
  const bits = (x) => { view.setFloat64(0, x); return Number.isNaN(x) ? "7ff8000000000000" : view.getBigUint64(0).toString(16).padStart(16, "0"); };
  const ALL = (1n << 64n) - 1n, LEAD = 1n << 52n;
  let seed = 88172645463325252n;
  const random = () => { seed ^= (seed << 13n) & ALL; seed ^= seed >> 7n; seed ^= (seed << 17n) & ALL; return seed; };
  const special = ["0", "8000000000000000", "1", "8000000000000001", "fffffffffffff", "10000000000000", "3ff0000000000000", "7fefffffffffffff",
    "7ff0000000000000", "fff0000000000000", "7ff8000000000000", "fff0000000000001"];
  function literal(s, n, d) {
    let k = 0n;
    while (n >= (d << 53n) << k) k += 1n;
    const unit = d << k, twice = 2n * (n % unit);
    let q = n / unit;
    if (twice > unit || (twice === unit && q % 2n === 1n)) q += 1n;
    const p = k * LEAD + q;
    return s * (1n << 63n) + (p < 0x7ff0000000000000n ? p : 0x7ff0000000000000n);
  }
  for (let i = 0; i < 12000; i += 1) {
    let x = random(), y = random();
    const way = random() % 4n;
    if (way === 0n) y = ((x & ~(0x3fn << 52n)) ^ (random() & (LEAD - 1n))) + ((random() % 60n) << 52n) & ALL;
    if (way === 1n) x = BigInt("0x" + special[Number(random() % 12n)]);
    if (way === 2n) x &= 0x800fffffffffffffn | ((random() << 52n) & 0x03f0000000000000n);
    const a = number(x), b = number(y), of = `${R.hex(x)} ${R.hex(y)}`;
    const pairs = [[R.plus, a + b], [R.minus, a - b], [R.times, a * b], [R.over, a / b]];
    for (const [operation, want] of pairs) same("operations beside the machine's", `${operation.name} ${of}`, R.hex(operation(x, y)), bits(want));
    same("operations beside the machine's", `root ${of}`, R.hex(R.root(x)), bits(Math.sqrt(a)));
    same("operations beside the machine's", `less ${of}`, R.less(x, y), a < b);
    if (i < 150 && Number.isFinite(a) && Number.isFinite(b) && a !== 0 && b !== 0) {
      const s = (x ^ y) >> 63n;
      same("operations beside section 3.1", `times ${of}`, R.times(x, y), literal(s, R.count(x) * R.count(y), 1n << 1074n));
      same("operations beside section 3.1", `over ${of}`, R.over(x, y), literal(s, R.count(x) << 1074n, R.count(y)));
    }
  }
  for (const x of hardRoots().flatMap((n) => [Number(n), Number(n) / 4 ** 60])) {
    same("roots next to a midpoint", x, R.hex(R.root(BigInt("0x" + bits(x)))), bits(Math.sqrt(x)));
  }
}

// Whole numbers n of 53 digits with n * 2^54 = c * c + d for an odd c of 54 digits and a small d: their roots lie next to the midpoint c / 2^27.
function hardRoots() {
  const found = [], modulus = 1n << 54n;
  for (let d = -201n; d <= 199n; d += 8n) {
    let c = 1n;
    for (let k = 3n; k < 55n; k += 1n) if ((c * c + d) % (1n << (k + 1n)) !== 0n) c += 1n << (k - 1n);
    for (const one of [c, -c, c + modulus / 2n, modulus / 2n - c]) {
      const odd = ((one % modulus) + modulus) % modulus, n = (odd * odd + d) / modulus;
      if (odd > modulus / 2n && (odd * odd + d) % modulus === 0n && n < 1n << 53n) found.push(n);
    }
  }
  return found;
}
