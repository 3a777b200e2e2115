// The rule of docs/DIFFERENCES.md: at which doubles our inverse error function and the Rust's own, err/inverf.rs, differ, and what both answer
// there. It is worked out here from that page's two formulas, apart from both functions.

const SIGN: u64 = 1 << 63;

/// 2^-52: up to here the Rust's own function answers with one product.
const TINY: f64 = f64::EPSILON;

/// Half the root of pi, as a pair: the paper's T0.
const T0_LOW: f64 = f64::from_bits(0xbc8618f13eb7ca89);
const T0_HIGH: f64 = f64::from_bits(0x3fec5bf891b4ef6b);

/// Our answer and the Rust's where they differ.
pub fn differing(bits: u64) -> Option<[u64; 2]> {
    let sign = bits & SIGN;
    let size = f64::from_bits(bits ^ sign);
    if size == 0.0 {
        return (sign != 0).then_some([SIGN, 0]);
    }
    if size > TINY || size.is_nan() {
        return None;
    }
    let (low, high) = two_product(T0_HIGH, size);
    let whole = high + (low + T0_LOW * size);
    (whole != high).then_some([whole, high].map(|answer| sign | answer.to_bits()))
}

/// Section 5.1 of docs/DEFINITION.md: the product as a pair.
fn two_product(a: f64, b: f64) -> (f64, f64) {
    let ((a_low, a_high), (b_low, b_high)) = (split(a), split(b));
    let h = a * b;
    let t1 = a_high * b_high - h;
    let t2 = a_high * b_low + t1;
    let t3 = a_low * b_high + t2;
    (a_low * b_low + t3, h)
}

/// Section 5.1: a double as a sum of two halves.
fn split(a: f64) -> (f64, f64) {
    let t = 134217729.0 * a;
    let h = t + (a - t);
    (a - h, h)
}
