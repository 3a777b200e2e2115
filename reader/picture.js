// The picture of a name's records over time, as awaqlla plot draws it: a dot for each time, a bar for the mean, a line for each limit.
// It is a list of marks, each [tag, attributes, text]; places are exact, to a thousandth.

const PLOT = { width: 900n, height: 520n, left: 76n, right: 210n, top: 56n, bottom: 64n };
const COLOURS = ["#7f0000", "#b30000", "#d7301f", "#ef6548", "#9e5fb0", "#6a51a3", "#41699e", "#2b8cbe"];

const compare = (a, b) => { const x = a.n * b.d, y = b.n * a.d; return x < y ? -1 : x > y ? 1 : 0; };
const whole = (n) => ({ n, d: 1n });
const meanOf = (leaf) => ({ n: leaf.S, d: leaf.n });
function thousandths(fraction) {
  const t = nearest({ n: 1000n * fraction.n, d: fraction.d }), size = sizeOf(t);
  return `${t < 0n ? "-" : ""}${size / 1000n}.${String(size % 1000n).padStart(3, "0")}`;
}

// A place some whole units further down the picture.
const lower = ({ n, d }, units) => ({ n: n + units * d, d });

// Heights of the grid's lines in ticks: a step of 1, 2 or 5 and zeros, so that at most ten lie between the least and the greatest value.
function gridOf(values) {
  let low = values[0], high = values[0];
  for (const v of values) {
    if (compare(v, low) < 0) low = v;
    if (compare(v, high) > 0) high = v;
  }
  const wide = { n: high.n * low.d - low.n * high.d, d: high.d * low.d };
  let unit = 1n, step = 1n;
  for (let k = 0; compare(wide, whole(10n * step)) > 0; k += 1) {
    if (k % 3 === 2) unit *= 10n;
    step = [2n, 5n, 1n][k % 3] * unit;
  }
  const first = floor({ n: low.n, d: low.d * step }), end = ceiling({ n: high.n, d: high.d * step }), lines = [];
  for (let i = first; i <= (end > first ? end : first + 1n); i += 1n) lines.push(i * step);
  return lines;
}

function scalesOf(leaves) {
  const lines = gridOf(leaves.flatMap((leaf) => [...leaf.ticks.map(whole), ...leaf.limits.map(fractionOf)]));
  const low = lines[0], high = lines.at(-1), room = PLOT.height - PLOT.bottom - PLOT.top, n = BigInt(leaves.length);
  const height = (v) => ({ n: (PLOT.height - PLOT.bottom) * v.d * (high - low) - (v.n - low * v.d) * room, d: v.d * (high - low) });
  return { lines, height, y: (v) => thousandths(height(v)),
    x: (place) => thousandths({ n: PLOT.left * place.d * n + place.n * (PLOT.width - PLOT.left - PLOT.right), d: place.d * n }) };
}

function axes(name, leaves, { lines, height, x, y }) {
  const { left, right, width } = PLOT, base = PLOT.height - PLOT.bottom;
  const marks = [["text", { x: left, y: 26, "font-size": 17, "font-weight": "bold", class: "ink" }, `${name}: link times and limits`],
    ["text", { x: left, y: 44, "font-size": 12, class: "soft" }, "milliseconds"]];
  for (const ticks of lines) {
    const at = y(whole(ticks)), under = thousandths(lower(height(whole(ticks)), 4n));
    marks.push(["line", { x1: left, x2: width - right, y1: at, y2: at, class: "grid", "data-ticks": ticks }],
      ["text", { x: left - 8n, y: under, "text-anchor": "end", "font-size": 12, class: "ink" }, milliseconds(ticks)]);
  }
  const every = (leaves.length + 7 - ((leaves.length + 7) % 8)) / 8;
  leaves.forEach((leaf, i) => {
    if (i % every !== 0) return;
    const middle = x({ n: 2n * BigInt(i) + 1n, d: 2n });
    marks.push(["text", { x: middle, y: base + 20n, "text-anchor": "middle", "font-size": 12, class: "ink" }, dateOf(leaf.day)],
      ["text", { x: middle, y: base + 36n, "text-anchor": "middle", "font-size": 11, class: "soft" }, `${leaf.ticks.length} times`]);
  });
  return marks;
}
function recordMarks(leaf, i, colours, { x, y }) {
  const at = BigInt(i), n = leaf.n, mean = meanOf(leaf);
  const between = (from, to, v) => ({ x1: x({ n: 12n * at + from, d: 12n }), x2: x({ n: 12n * at + to, d: 12n }), y1: y(v), y2: y(v) });
  const dot = (t, k) => {
    const place = { n: 6n * n * at + n + 2n * (2n * BigInt(k) + 1n), d: 6n * n };
    return ["circle", { cx: x(place), cy: y(whole(t)), r: "2.6", class: "time", "data-record": i, "data-ticks": t }];
  };
  const line = (chance, k) => {
    const bits = leaf.limits[k], { name, ink } = colours.get(chance);
    return ["line", { ...between(1n, 11n, fractionOf(bits)), class: `limit ${name}`, stroke: ink, "data-record": i, "data-chance": chance,
      "data-bits": hex(bits), "data-ms": milliseconds(ticksUp(bits)) }];
  };
  const bar = ["line", { ...between(2n, 10n, mean), class: "mean", "data-record": i, "data-ms": milliseconds(nearest(mean)) }];
  return [...leaf.ticks.map(dot), bar, ...leaf.chances.map(line)];
}
// The labels of the last record, from the top down and no two closer than 15.
function labels(leaf, colours, { height }) {
  const words = (chance, bits) => `${grouped(chance)} in a million: ${milliseconds(ticksUp(bits))}`;
  const wanted = leaf.chances.map((c, k) => ({ v: fractionOf(leaf.limits[k]), text: words(c, leaf.limits[k]), ...colours.get(c) }));
  wanted.push({ v: meanOf(leaf), text: `mean: ${milliseconds(nearest(meanOf(leaf)))}`, name: "means", ink: "#1a7f37" });
  wanted.sort((a, b) => compare(b.v, a.v));
  const places = [];
  for (const { v } of wanted) {
    const own = lower(height(v), 4n), least = places.length > 0 ? lower(places.at(-1), 15n) : whole(0n);
    places.push(compare(own, least) > 0 ? own : least);
  }
  const beyond = lower(places.at(-1), -(PLOT.height - PLOT.bottom + 4n)), lift = beyond.n > 0n ? beyond : whole(0n);
  const lifted = ({ n, d }) => thousandths({ n: n * lift.d - lift.n * d, d: d * lift.d });
  const x = PLOT.width - PLOT.right + 8n;
  return wanted.map(({ text, name, ink }, k) => ["text", { x, y: lifted(places[k]), "font-size": 12, class: `label ${name}`, fill: ink }, text]);
}
function pictureOf(name, leaves) {
  const colour = (k) => ({ name: `colour${k % COLOURS.length}`, ink: COLOURS[k % COLOURS.length] });
  const colours = new Map(chancesOf(leaves).map((chance, k) => [chance, colour(k)])), scales = scalesOf(leaves);
  return [...axes(name, leaves, scales), ...leaves.flatMap((leaf, i) => recordMarks(leaf, i, colours, scales)), ...labels(leaves.at(-1), colours, scales)];
}
