// The doubles that matter to the inverse error function: its branches' ranges and cuts, the shares,
// and the arguments at which the logarithm within it changes its table entry.

use crate::doubles::around;
use crate::quantile::{bin_start, compose, even, of_sizes, InputRange, BINS};
use std::ops::RangeInclusive;

/// Up to here the Rust's own function (err/inverf.rs) answers with one product: 2^-52.
const TINY: f64 = f64::EPSILON;

/// Where a branch of erf_core, or of the Rust's own function, changes.
pub const CUTS: [f64; 6] = [TINY, 0.0095, 0.06, 0.75, 0.9999, 1.0];

/// Edges that are no cut of a branch: 0, the least normal double, the infinity, a NaN.
pub const ENDS: [u64; 4] = [
    0,
    0x0010000000000000,
    0x7ff0000000000000,
    0x7ff8000000000000,
];

pub const RANGES: [InputRange; 6] = [
    of_sizes("(0, 2^-52]", 0.0..TINY),
    of_sizes("[2^-52, 0.0095]", TINY..0.0095),
    even("[0.0095, 0.06]", 0.0095..0.06),
    even("[0.06, 0.75]", 0.06..0.75),
    even("[0.75, 0.9999]", 0.75..0.9999),
    even("[0.9999, 1)", 0.9999..1.0),
];

/// Shares are 1 to 999,999 in a million.
pub const SHARES: RangeInclusive<u64> = 1..=999_999;

/// The bits of the argument for a share.
pub fn share(w: u64) -> u64 {
    (w as f64 / 1_000_000.0).to_bits()
}

/// Inputs x with 1 - x at the start of every bin of the logarithm, or the nearest that an input can have, a few neighbours each.
pub fn bin_edges() -> impl Iterator<Item = u64> {
    (991..1021)
        .flat_map(|exponent| (0..BINS).map(move |index| compose(exponent, bin_start(index))))
        .map(|bits| (1.0 - f64::from_bits(bits)).to_bits())
        .flat_map(|bits| around(bits, 2))
}
