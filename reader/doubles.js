// Sections 2 to 4 of the paper: doubles, the rounded operations, the square root.
// A double is its bit pattern, a whole number from 0 to 2^64 - 1. Every number here is a BigInt; the paper's signs are plus, minus, times and over.

const SIGN = 1n << 63n, SIZE = SIGN - 1n, LEAD = 1n << 52n, FRACTION = LEAD - 1n;
const INFINITE = 0x7ff0000000000000n, NAN = 0x7ff8000000000000n;

// ---- 2. Doubles. The count of a finite double is part(x) * 2^power(x).
const isNan = (x) => (x & SIZE) > INFINITE;
const isInfinite = (x) => (x & SIZE) === INFINITE;
const isZero = (x) => (x & SIZE) === 0n;
const signOf = (x) => x >> 63n;
const field = (x) => (x >> 52n) & 2047n;
const part = (x) => (field(x) === 0n ? x & FRACTION : (x & FRACTION) | LEAD);
const power = (x) => { const f = field(x); return f === 0n ? 0n : f - 1n; };
const count = (x) => part(x) << power(x);
const hex = (x) => x.toString(16).padStart(16, "0");

// ---- 3.1 Rounding
// How many binary digits a whole number above 0 has: four for each of its hexadecimal ones, but for the first.
const FIRST_DIGIT = { 1: 1n, 2: 2n, 3: 2n, 4: 3n, 5: 3n, 6: 3n, 7: 3n };
function digits(n) {
  const h = n.toString(16);
  return 4n * (BigInt(h.length) - 1n) + (FIRST_DIGIT[h[0]] ?? 4n);
}
// round(s, v) where v counted in smallest positive doubles is u = n * 2^e, n > 0.
function round(s, n, e) {
  const beyond = digits(n) + e - 53n;
  const k = beyond > 0n ? beyond : 0n;
  let q = n << (e - k); // a shift by less than 0 leaves the whole part
  if (k > e) {
    const unit = 1n << (k - e), twice = 2n * (n & (unit - 1n));
    if (twice > unit || (twice === unit && (q & 1n) === 1n)) q += 1n;
  }
  const p = (k << 52n) + q;
  return (s << 63n) | (p < INFINITE ? p : INFINITE);
}

// ---- 3.2 The operations
const negated = (x) => (isNan(x) ? NAN : x ^ SIGN);
function plus(x, y) {
  if (isNan(x) || isNan(y)) return NAN;
  if (isInfinite(x)) return isInfinite(y) && x !== y ? NAN : x;
  if (isInfinite(y)) return y;
  const i = power(x), j = power(y), e = i < j ? i : j;
  const w = part(x) << (i - e), v = part(y) << (j - e);
  const z = (x >= SIGN ? -w : w) + (y >= SIGN ? -v : v);
  if (z === 0n) return x >= SIGN && y >= SIGN ? SIGN : 0n;
  return z < 0n ? round(1n, -z, e) : round(0n, z, e);
}
const minus = (x, y) => plus(x, negated(y));
function times(x, y) {
  if (isNan(x) || isNan(y)) return NAN;
  const s = signOf(x) ^ signOf(y);
  if (isInfinite(x) || isInfinite(y)) return isZero(x) || isZero(y) ? NAN : (s << 63n) | INFINITE;
  const n = part(x) * part(y);
  return n === 0n ? s << 63n : round(s, n, power(x) + power(y) - 1074n);
}
function over(x, y) {
  if (isNan(x) || isNan(y) || (isInfinite(x) && isInfinite(y)) || (isZero(x) && isZero(y))) return NAN;
  const s = signOf(x) ^ signOf(y);
  if (isInfinite(x) || isZero(y)) return (s << 63n) | INFINITE;
  if (isInfinite(y) || isZero(x)) return s << 63n;
  // The quotient to 56 binary digits or more, and behind them one more, which says whether anything is left.
  const n = part(x) << 108n, d = part(y), q = n / d;
  return round(s, (q << 1n) | (q * d === n ? 0n : 1n), power(x) - power(y) + 1074n - 109n);
}
// Patterns of one sign lie in the order of their sizes.
const rank = (x) => (x >= SIGN ? -(x & SIZE) : x);
const less = (x, y) => !isNan(x) && !isNan(y) && rank(x) < rank(y);
const atMost = (x, y) => !isNan(x) && !isNan(y) && rank(x) <= rank(y);
const equal = (x, y) => !isNan(x) && !isNan(y) && rank(x) === rank(y);
function double(n) {
  if (n === 0n) return 0n;
  return n < 0n ? negated(double(-n)) : round(0n, n, 1074n);
}

// ---- 4. The square root
function wholeRoot(n) {
  let j = 1n << ((digits(n) + 1n) >> 1n);
  for (;;) {
    const next = (j + n / j) >> 1n;
    if (next >= j) return j;
    j = next;
  }
}
function root(x) {
  if (isNan(x) || isZero(x)) return isNan(x) ? NAN : x;
  if (x >= SIGN) return NAN;
  if (isInfinite(x)) return x;
  // With pencil: N / 4^h is 2^108 or 2^109 times the part, so that its whole root is 2^54 or more.
  const twos = power(x) + 1074n, h = (twos >> 1n) - 54n;
  const n = part(x) << (twos - 2n * h), j = wholeRoot(n);
  return round(0n, (j << 1n) | (j * j === n ? 0n : 1n), h - 1n);
}
