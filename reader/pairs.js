// Section 5 of the paper: pairs of doubles, { low, high }. The names and the order of arguments are the paper's.

const pair = (low, high) => ({ low, high });
const negatedPair = (A) => pair(negated(A.low), negated(A.high));
const ZERO = C.ZERO, HALF = C.HALF, ONE = C.ONE, TWO = C.TWO, FOUR = C.FOUR;
const MINUS_HALF = negated(HALF), MINUS_ONE = negated(ONE), MINUS_FOUR = negated(FOUR);

// ---- 5.1 Sums and products of doubles, as pairs
function split(a) {
  const t = times(C.SPLITTER, a);
  const u = minus(a, t);
  const h = plus(t, u);
  return pair(minus(a, h), h);
}
function twoProduct(a, b) {
  const A = split(a);
  const B = split(b);
  const h = times(a, b);
  const t1 = minus(times(A.high, B.high), h);
  const t2 = plus(times(A.high, B.low), t1);
  const t3 = plus(times(A.low, B.high), t2);
  return pair(plus(times(A.low, B.low), t3), h);
}
function fastTwoSum(a, b) {
  const h = plus(a, b);
  const t = minus(h, a);
  return pair(minus(b, t), h);
}
function twoSum(a, b) {
  const h = plus(a, b);
  const t1 = minus(h, a);
  const t2 = minus(h, t1);
  const t3 = minus(b, t1);
  const t4 = minus(a, t2);
  return pair(plus(t3, t4), h);
}
function twoDifference(a, b) {
  const h = minus(a, b);
  const t1 = minus(h, a);
  const t2 = minus(h, t1);
  const t3 = minus(negated(b), t1);
  const t4 = minus(a, t2);
  return pair(plus(t3, t4), h);
}

// ---- 5.2 Sums and products with pairs
function addDouble(A, b) {
  const T = twoSum(A.high, b);
  return pair(plus(A.low, T.low), T.high);
}
function addToDouble(b, A) {
  const T = fastTwoSum(b, A.high);
  return pair(plus(A.low, T.low), T.high);
}
function multiply(A, B) {
  const P = twoProduct(A.high, B.high);
  const t1 = times(A.high, B.low);
  const t2 = times(A.low, B.high);
  const t3 = plus(t1, t2);
  return pair(plus(P.low, t3), P.high);
}
function multiplyDouble(A, b) {
  const P = twoProduct(A.high, b);
  const t = times(A.low, b);
  return pair(plus(P.low, t), P.high);
}
function multiplyAdd(A, B, K) {
  const M = multiply(A, B);
  const S = addDouble(K, M.high);
  return pair(plus(M.low, S.low), S.high);
}
function multiplyAddDouble(A, B, c) {
  const M = multiply(A, B);
  const S = twoSum(c, M.high);
  return pair(plus(M.low, S.low), S.high);
}
function multiplyDoubleAdd(A, b, K) {
  const M = multiplyDouble(A, b);
  const S = addDouble(K, M.high);
  return pair(plus(M.low, S.low), S.high);
}

// ---- 5.3 Quotient, reciprocal, root
function divide(A, B) {
  const q = over(ONE, B.high);
  const h = times(A.high, q);
  const M = twoProduct(B.high, negated(h));
  const N = twoProduct(B.low, negated(h));
  const e1 = plus(plus(A.high, M.high), M.low);
  const e2 = plus(plus(A.low, N.high), N.low);
  return pair(times(q, plus(e1, e2)), h);
}
function reciprocal(A) {
  const y = over(ONE, A.high);
  const P = twoProduct(A.high, y);
  const e1 = minus(minus(ONE, P.high), P.low);
  const Q = twoProduct(A.low, y);
  const e2 = minus(minus(e1, Q.high), Q.low);
  return pair(times(y, e2), y);
}
function pairRoot(A) {
  const x = root(plus(A.high, A.low));
  const M = twoProduct(x, x);
  const r1 = minus(A.high, M.high);
  const r2 = plus(r1, A.low);
  const r3 = minus(r2, M.low);
  const d = over(r3, times(TWO, x));
  const h = plus(x, d);
  return pair(plus(minus(x, h), d), h);
}

// ---- 5.4 Back to a double
const value = (A) => plus(A.low, A.high);
const productPlus = (a, b, c) => value(addDouble(twoProduct(a, b), c));
const multiplyThenAdd = (a, b, c) => plus(times(a, b), c);
function polynomial4(x, a0, a1, a2, a3) {
  const t2 = multiplyThenAdd(x, a3, a2);
  const t1 = multiplyThenAdd(x, t2, a1);
  return multiplyThenAdd(x, t1, a0);
}
function polynomial5(x, a0, a1, a2, a3, a4) {
  const t3 = multiplyThenAdd(x, a4, a3);
  const t2 = multiplyThenAdd(x, t3, a2);
  const t1 = multiplyThenAdd(x, t2, a1);
  return multiplyThenAdd(x, t1, a0);
}
