// Sections 6 and 7 of the paper: the logarithm, the quantile and the inverse error function. The names are the paper's.

// ---- 6.1 Reduction
function reduction(x) {
  const f = field(x), g = x & FRACTION;
  let m = LEAD + g, c = f - 1023n;
  if (f === 0n) {
    let j = 0n;
    while ((g << j) < LEAD) j += 1n;
    m = g << j;
    c = -1022n - j;
  }
  const p = ONE + (m - LEAD), above = m >= C.ROOT_AT;
  const i = (above ? m >> 45n : m >> 44n) - C.INDEX_FIRST;
  const t = times(p, above ? HALF : ONE);
  const e = double(above ? c + 1n : c);
  note("6.1", { m, c, p, i, t, e }, "m c i");
  return { i, t, e };
}

// ---- 6.2 Table and polynomial
function logPolynomial(z) {
  const T = C.LOGPOLY;
  const W = twoProduct(z, z);
  const t = productPlus(T[5], z, T[4]);
  const u1 = productPlus(T[3], z, T[2]);
  const v1 = productPlus(T[1], z, T[0]);
  const u2 = productPlus(t, W.high, u1);
  const v2 = productPlus(u2, W.high, v1);
  const u3 = times(v2, W.high);
  const l = productPlus(u3, z, times(MINUS_HALF, W.low));
  return pair(l, times(MINUS_HALF, W.high));
}
const logResidue = (i, t) => productPlus(C.RECIPROCAL[i], t, MINUS_ONE);
function logSum(i, e, z) {
  const D = multiplyDoubleAdd(C.LOG2, e, C.LOGARITHM[i]);
  note("6.2", { D });
  return addToDouble(D.high, pair(D.low, z));
}

// ---- 6.3 The two logarithms
function logParts(i, t, e) {
  const z = logResidue(i, t);
  note("6.3", { z });
  const V = logSum(i, e, z);
  const P = logPolynomial(z);
  note("6.3", { V, P });
  return { V, P };
}
function logOfDouble(i, t, e) {
  const { V, P } = logParts(i, t, e);
  const W = addToDouble(V.high, pair(plus(V.low, P.low), P.high));
  note("6.3", { W });
  return fastTwoSum(W.high, W.low);
}
function logShare(X) {
  if (atMost(X.high, C.LARGE) || atMost(FOUR, X.low) || atMost(X.low, MINUS_FOUR)) return over(X.low, X.high);
  return ZERO;
}
function logOfPair(X, i, t, e) {
  const { V, P } = logParts(i, t, e);
  const l = plus(plus(V.low, P.low), logShare(X));
  return addToDouble(V.high, pair(l, P.high));
}

// ---- 7. The quantile, by the first that holds
function quantile(x) {
  if (isZero(x)) return INFINITE;
  if (equal(x, TWO)) return INFINITE | SIGN;
  if (isNan(x) || less(x, ZERO) || less(TWO, x)) return NAN;
  if (equal(x, ONE)) return ZERO;
  if (!less(x, C.TENTH)) return central(x);
  const { i, t, e } = reduction(x);
  return value(asymptotic(logOfDouble(i, t, e), atMost(C.SHORT_FROM, x)));
}

// ---- 7.1 From the double 0.1 up to 2
function coreArgument(x) {
  const Y = less(ONE, x) ? twoDifference(TWO, x) : pair(ZERO, x);
  const K = addDouble(negatedPair(Y), ONE);
  return fastTwoSum(K.high, K.low);
}
function central(x) {
  const A = coreArgument(x);
  note("7.1", { A });
  const r = value(core(A));
  return times(r, less(ONE, x) ? MINUS_ONE : ONE);
}
function wayOf(A) {
  if (atMost(A.high, C.CUT_1)) return taylor4;
  if (atMost(A.high, C.CUT_2)) return taylor7;
  if (atMost(A.high, C.CUT_3)) return middle;
  return tail;
}
const core = (A) => wayOf(A)(A);

// ---- 7.2 Up to CUT_2: Taylor's series
function taylor4(A) {
  const Z = multiply(A, A);
  const p = multiplyThenAdd(Z.high, C.T3, C.T2.high);
  const R1 = multiplyDoubleAdd(Z, p, C.T1);
  const R0 = multiplyAdd(Z, R1, C.T0);
  note("7.2", { Z, R0 });
  return multiply(R0, A);
}
function taylor7(A) {
  const Z = multiply(A, A);
  const p = polynomial4(Z.high, C.T3, C.T4, C.T5, C.T6);
  const R2 = multiplyDoubleAdd(Z, p, C.T2);
  const R1 = multiplyAdd(Z, R2, C.T1);
  const R0 = multiplyAdd(Z, R1, C.T0);
  note("7.2", { Z, R0 });
  return multiply(R0, A);
}

// ---- 7.3 Up to CUT_3: a rational function, with a rounding test
const centred = (A) => addDouble(multiply(A, A), negated(C.CENTRE));
function horner10(T, U) {
  const p = polynomial5(U.high, T[5].high, T[6].high, T[7].high, T[8].high, T[9].high);
  const N4 = multiplyDoubleAdd(U, p, T[4]);
  const N3 = multiplyAdd(U, N4, T[3]);
  const N2 = multiplyAdd(U, N3, T[2]);
  const N1 = multiplyAdd(U, N2, T[1]);
  return multiplyAdd(U, N1, T[0]);
}
function quickRational(A) {
  const U = centred(A);
  const R = divide(horner10(C.MIDP, U), horner10(C.MIDQ, U));
  note("7.3", { U, R });
  return multiply(R, A);
}
function paired10(T, U, U2, U4, U8) {
  const P0 = multiplyAdd(U, T[1], T[0]);
  const P1 = multiplyAdd(U, T[3], T[2]);
  const P2 = multiplyAdd(U, T[5], T[4]);
  const P3 = multiplyAdd(U, T[7], T[6]);
  const P4 = multiplyAdd(U, T[9], T[8]);
  const Q0 = multiplyAdd(U2, P1, P0);
  const Q1 = multiplyAdd(U2, P3, P2);
  const R0 = multiplyAdd(U4, Q1, Q0);
  return multiplyAdd(U8, P4, R0);
}
function carefulRational(A) {
  const U = centred(A);
  const { U2, U4, U8 } = powers(U);
  const R = divide(paired10(C.MIDP, U, U2, U4, U8), paired10(C.MIDQ, U, U2, U4, U8));
  note("7.3", { R });
  return multiply(R, A);
}
function powers(U) {
  const U2 = multiply(U, U);
  const U4 = multiply(U2, U2);
  const U8 = multiply(U4, U4);
  return { U2, U4, U8 };
}
function middle(A) {
  const K = quickRational(A);
  note("7.3", { K });
  const e = multiplyThenAdd(K.high, C.ERROR_1, C.ERROR_2);
  const a = plus(K.high, plus(K.low, e));
  const b = plus(K.high, minus(K.low, e));
  return equal(a, b) ? K : carefulRational(A);
}

// ---- 7.4 The tails: two rational functions in the reciprocal of a root
function tail(A) {
  const X = addDouble(negatedPair(A), ONE);
  note("7.4", { X });
  const { i, t, e } = reduction(X.high);
  const L = logOfPair(X, i, t, e);
  return asymptotic(L, less(A.high, C.CUT_4));
}
function asymptotic(L, short) {
  const Z = negatedPair(fastTwoSum(L.high, L.low));
  const R = pairRoot(Z);
  const U = reciprocal(R);
  note("7.4", { L, Z, R, U });
  return short ? shortRational(U, R) : longRational(U, R);
}
function paired11(T, Q0, U, U2, U4, U8) {
  const Q1 = multiplyAdd(T[3], U, T[2]);
  const Q2 = multiplyAdd(T[5], U, T[4]);
  const Q3 = multiplyAdd(T[7], U, T[6]);
  const Q4 = multiplyAdd(T[9], U, T[8]);
  const R0 = multiplyAdd(U2, Q1, Q0);
  const R1 = multiplyAdd(U2, Q3, Q2);
  const S0 = multiplyAdd(U4, R1, R0);
  const S1 = multiplyAdd(U2, T[10], Q4);
  note("7.4", { Q0, Q1, Q2, Q3, Q4, R0, R1, S0, S1 });
  return multiplyAdd(U8, S1, S0);
}
function shortRational(U, R) {
  const { U2, U4, U8 } = powers(U);
  note("7.4", { U2, U4, U8 });
  const P0 = multiplyAdd(C.SHORTP[1], U, C.SHORTP[0]);
  const Q0 = multiplyAddDouble(C.SHORTQ[1], U, ONE);
  const N = paired11(C.SHORTP, P0, U, U2, U4, U8);
  note("7.4", { N });
  return ratio(N, paired11(C.SHORTQ, Q0, U, U2, U4, U8), R);
}
function ratio(N, D, R) {
  const quotient = divide(N, D);
  const answer = multiply(quotient, R);
  note("7.4", { D, "divide(N, D)": quotient, answer });
  return answer;
}
function paired14(T, U, U2, U4, U8) {
  const G0 = multiplyAdd(U, T[1], T[0]);
  const G1 = multiplyAdd(U, T[3], T[2]);
  const G2 = multiplyAdd(U, T[5], T[4]);
  const G3 = multiplyAdd(U, T[7], T[6]);
  const G4 = multiplyAdd(U, T[9], T[8]);
  const G5 = multiplyAdd(U, T[11], T[10]);
  const G6 = multiplyAdd(U, T[13], T[12]);
  const H0 = multiplyAdd(U2, G1, G0);
  const H1 = multiplyAdd(U2, G3, G2);
  const H2 = multiplyAdd(U2, G5, G4);
  const Q0 = multiplyAdd(U4, H1, H0);
  const Q1 = multiplyAdd(U4, G6, H2);
  note("7.4", { G0, G1, G2, G3, G4, G5, G6, H0, H1, H2, Q0, Q1 });
  return multiplyAdd(U8, Q1, Q0);
}
function longRational(U, R) {
  const { U2, U4, U8 } = powers(U);
  note("7.4", { U2, U4, U8 });
  const N = paired14(C.LONGP, U, U2, U4, U8);
  note("7.4", { N });
  return ratio(N, paired14(C.LONGQ, U, U2, U4, U8), R);
}

// ---- 7.5 The inverse error function
function inverse(x) {
  if (isZero(x)) return x;
  const a = x & SIZE;
  if (a === ONE) return (x & SIGN) | INFINITE;
  if (a > ONE) return NAN;
  return (value(core(pair(ZERO, a))) & SIZE) | (x & SIGN);
}
