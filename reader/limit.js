// Section 8 of the paper: the limit and the band. Forms, chances, shares and times are BigInts.

const within = (least, n, most) => least <= n && n <= most;
const timesStand = (ticks) => within(C.TIMES_LEAST, BigInt(ticks.length), C.TIMES_MOST) && ticks.every((t) => within(C.TICKS_LEAST, t, C.TICKS_MOST));
const divisorOf = (f, n) => (f === C.SAMPLE_FORM ? n * (n - 1n) : n * n);

// Mean and spread, which no chance changes; S and n too, for the exact mean.
function meanAndSpread(f, ticks) {
  const n = BigInt(ticks.length);
  let S = 0n, Q = 0n;
  for (const t of ticks) {
    S += t;
    Q += t * t;
  }
  const D = n * Q - S * S;
  const mean = over(double(S), double(n));
  const divisor = divisorOf(f, n);
  const variance = over(double(D), double(divisor));
  const spread = root(variance);
  note("8", { f, n, S, Q, D, mean, divisor, variance, spread }, "f n S Q D divisor");
  return { mean, spread, S, n };
}

// Quantiles are remembered by chance; while steps are noted each is worked out again.
const remembered = new Map();
function quantileAt(c) {
  if (noted === null && remembered.has(c)) return remembered.get(c);
  const x = over(double(c), double(C.CHANCE_SCALE));
  note("8", { x });
  const e = quantile(x);
  note("8", { e });
  remembered.set(c, e);
  return e;
}
function limitFrom(mean, spread, e) {
  const wide = times(spread, C.ROOT_TWO);
  const above = times(wide, e);
  const answer = plus(mean, above);
  note("8", { "spread \u2297 ROOT_TWO": wide, "that \u2297 e": above, answer });
  return answer;
}
// { mean, spread, e, limit } or { refusal }
function limit(f, ticks, c) {
  if (f !== C.PLAIN_FORM && f !== C.SAMPLE_FORM) return { refusal: 2 };
  if (!within(C.CHANCE_LEAST, c, C.CHANCE_MOST)) return { refusal: 5 };
  if (!timesStand(ticks)) return { refusal: 6 };
  const { mean, spread } = meanAndSpread(f, ticks);
  const e = quantileAt(c);
  return { mean, spread, e, limit: limitFrom(mean, spread, e) };
}
const limitSteps = (f, ticks, c) => stepsOf(() => limit(f, ticks, c)).map(stepLine);

// ---- 8.1 The band: { low, high } or { refusal }
function band(ticks, w) {
  if (!within(C.SHARE_LEAST, w, C.SHARE_MOST)) return { refusal: 18 };
  if (!timesStand(ticks)) return { refusal: 6 };
  const { mean, spread } = meanAndSpread(C.SAMPLE_FORM, ticks);
  const x = over(double(w), double(C.SHARE_SCALE));
  const half = times(times(spread, C.ROOT_TWO), inverse(x));
  return { low: minus(mean, half), high: plus(mean, half) };
}
