// The doubles that matter to f_erfcinv: its branches' ranges and cuts, the chances,
// and the arguments at which the logarithms within it change their table entry or their halving.

use crate::doubles::{around, inside};
use crate::random::Random;
use std::ops::{Range, RangeInclusive};

/// Where the branch changes, below 1 and mirrored above; 1.9 mirrors a cut and is none itself.
pub const CUTS: [f64; 12] = [
    0.0001, 0.1, 0.25, 0.94, 0.9905, 1.0, 1.0095, 1.06, 1.75, 1.9, 1.9999, 2.0,
];

/// Edges that are no cut of a branch: 0, -0, the least normal, -1, both infinities, a NaN.
pub const ENDS: [u64; 7] = [
    0,
    0x8000000000000000,
    0x0010000000000000,
    0xbff0000000000000,
    0x7ff0000000000000,
    0xfff0000000000000,
    0x7ff8000000000000,
];

/// A range of inputs, which one branch takes or, in the middle, two.
pub struct InputRange {
    pub name: &'static str,
    range: Range<f64>,
    even_in_bits: bool,
}

pub(crate) const fn even(name: &'static str, range: Range<f64>) -> InputRange {
    InputRange {
        name,
        range,
        even_in_bits: false,
    }
}

/// A range with many sizes.
pub(crate) const fn of_sizes(name: &'static str, range: Range<f64>) -> InputRange {
    InputRange {
        name,
        range,
        even_in_bits: true,
    }
}

pub const BELOW_ONE: [InputRange; 6] = [
    of_sizes("[1e-300, 1e-4]", 1e-300..1e-4),
    even("[1e-4, 0.1]", 1e-4..0.1),
    even("[0.1, 0.25]", 0.1..0.25),
    even("[0.25, 0.94]", 0.25..0.94),
    even("[0.94, 0.9905]", 0.94..0.9905),
    even("[0.9905, 1)", 0.9905..1.0),
];

pub const ABOVE_ONE: [InputRange; 5] = [
    even("(1, 1.0095]", 1.0..1.0095),
    even("[1.0095, 1.06]", 1.0095..1.06),
    even("[1.06, 1.75]", 1.06..1.75),
    even("[1.75, 1.9999]", 1.75..1.9999),
    even("[1.9999, 2)", 1.9999..2.0),
];

pub const ONE_TO_TWO: InputRange = even("(1, 2)", 1.0..2.0);

impl InputRange {
    /// The bits of a random double of the range, even in value, or in bits where the range has many sizes.
    pub fn draw(&self, random: &mut Random) -> u64 {
        if self.even_in_bits {
            random.whole(self.range.start.to_bits(), self.range.end.to_bits())
        } else {
            random.between(self.range.start, self.range.end).to_bits()
        }
    }

    /// The same, but half of the doubles crowd towards the ends.
    pub fn draw_crowded(&self, random: &mut Random) -> u64 {
        inside(&self.range, random).to_bits()
    }
}

/// Inputs whose answers differ where the Rust is built with fma.
pub const FMA_TELLING: [u64; 3] = [0x3fe84ff00edbe053, 0x3fe971e6fc22ca44, 0x3ff2e86c13f84682];

/// Chances are 1 to 999,999 in a million.
pub const CHANCES: RangeInclusive<u64> = 1..=999_999;

/// The bits of the quantile's argument for a chance.
pub fn chance(c: u64) -> u64 {
    (c as f64 / 500_000.0).to_bits()
}

/// The entries of the logarithms' tables.
pub const BINS: u64 = 182;

/// The significand from which a logarithm halves its argument.
const HALVED_FROM: u64 = 0x16a09e667f3bcd;

/// The first 53-bit significand that the logarithms look up at this index.
/// Indices below 75 belong to the halved arguments: the first of them starts inside its bin.
pub fn bin_start(index: u64) -> u64 {
    match index {
        0 => HALVED_FROM,
        1..75 => (index + 181) << 45,
        _ => (index + 181) << 44,
    }
}

/// A significand in the middle of the bin, up to a few.
pub fn bin_middle(index: u64) -> u64 {
    let end = match index {
        74 => 1 << 53,
        181 => HALVED_FROM,
        _ => bin_start(index + 1),
    };
    (bin_start(index) + end) / 2
}

/// The double of this 53-bit significand with this exponent field; an exponent field of 0 is not meant.
pub fn compose(exponent: u64, significand: u64) -> u64 {
    exponent << 52 | significand & 0xfffffffffffff
}

/// The input above 1.75 whose logarithm's argument is that double below 0.25, or the nearest that an input can have.
pub fn mirrored(bits: u64) -> u64 {
    (2.0 - f64::from_bits(bits)).to_bits()
}

/// The exponent fields of the normal doubles below 0.0625, all of which go to the logarithm themselves.
pub const DIRECT_EXPONENTS: Range<u64> = 1..1019;

/// The exponent fields of 2 - x for x above 1.75 that leave some digits of the significand.
pub const MIRRORED_EXPONENTS: Range<u64> = 991..1021;

/// Inputs at the start of every bin of both logarithms, a few neighbours each.
pub fn bin_edges() -> impl Iterator<Item = u64> {
    let direct = [1, 2, 500, 1009, 1018].into_iter();
    let direct =
        direct.flat_map(|exponent| (0..BINS).map(move |i| compose(exponent, bin_start(i))));
    let tail = MIRRORED_EXPONENTS
        .flat_map(|exponent| (0..BINS).map(move |i| mirrored(compose(exponent, bin_start(i)))));
    direct.chain(tail).flat_map(|bits| around(bits, 2))
}

/// Inputs at the split of both logarithms at the root of 2, at every exponent.
pub fn root_two_splits(reach: u64) -> impl Iterator<Item = u64> {
    let subnormal = (1..52).map(|shift| HALVED_FROM >> shift);
    let direct = DIRECT_EXPONENTS.map(|exponent| compose(exponent, HALVED_FROM));
    let to_a_quarter = [1019, 1020].map(|exponent| compose(exponent, HALVED_FROM));
    let tail = MIRRORED_EXPONENTS.map(|exponent| mirrored(compose(exponent, HALVED_FROM)));
    subnormal
        .chain(direct)
        .chain(to_a_quarter)
        .chain(tail)
        .flat_map(move |bits| around(bits, reach))
}
