// Doubles that any function over doubles should be tried on: edge doubles and their neighbours, as bit patterns,
// and random values and low parts of a given shape.

use crate::random::Random;
use std::ops::{Range, RangeInclusive};

const fn two_to(n: i64) -> f64 {
    f64::from_bits(((1023 + n) as u64) << 52)
}

/// Sizes at which something changes in the format, in the pair arithmetic or in the quantile.
const PLACES: [f64; 25] = [
    f64::MIN_POSITIVE,
    two_to(-530), // its square is subnormal
    two_to(-53),
    0.0001,
    0.0095,
    0.06,
    0.1,
    0.25,
    0.5,
    0.5625,
    0.75,
    0.9999,
    1.0,
    std::f64::consts::SQRT_2,
    2.0,
    3.0,
    4.0, // a low part from here up is divided by a huge high part in fast_log_dd, a smaller one is not
    two_to(27),
    two_to(27) + 1.0, // the factor of split
    two_to(53),
    two_to(512), // its square is infinite
    two_to(996), // the last power that split takes
    two_to(997),
    two_to(1022), // the last high part that fast_log_dd does not call huge
    f64::MAX,
];

/// Other patterns: zero, subnormals, infinity, NaNs quiet and signalling.
const PATTERNS: [u64; 10] = [
    0,
    1,
    2,
    0x0008000000000000,
    0x000fffffffffffff,
    0x7ff0000000000000,
    0x7ff0000000000001,
    0x7ff8000000000000,
    0x7ffc123456789abc,
    0x7fffffffffffffff,
];

const SIGN: u64 = 1 << 63;

/// Every edge double, with both neighbours where they are numbers, under both signs.
pub fn edges() -> Vec<u64> {
    let near = PLACES.iter().flat_map(|x| around(x.to_bits(), 1));
    let mut all: Vec<u64> = near.chain(PATTERNS).collect();
    all.sort_unstable();
    all.dedup();
    let negative: Vec<u64> = all.iter().map(|bits| bits | SIGN).collect();
    all.extend(negative);
    all
}

/// The pattern with so many neighbours to each side; below 0 there are none.
pub fn around(bits: u64, reach: u64) -> RangeInclusive<u64> {
    bits.saturating_sub(reach)..=bits + reach
}

/// A double of either sign, half of them between 1/4 and 4 in size, half between 2^-40 and 2^40.
pub fn moderate(random: &mut Random) -> f64 {
    let reach = *random.pick(&[2, 40]);
    let exponent = random.whole(1023 - reach, 1022 + reach);
    f64::from_bits(random.bits() & SIGN | exponent << 52 | random.bits() >> 12)
}

/// A double of the range: half of them even in value, half crowded towards one of the ends.
pub fn inside(range: &Range<f64>, random: &mut Random) -> f64 {
    let shrink = 0.5f64.powi(random.below(60) as i32);
    let step = (range.end - range.start) * random.unit();
    match random.below(4) {
        0 => range.start + step * shrink,
        1 => range.end - step * shrink,
        _ => range.start + step,
    }
}

/// A low part such as the pair arithmetic leaves: at most half a unit of the high part's last place, at times 0.
pub fn low_part(high: f64, random: &mut Random) -> f64 {
    if random.below(16) == 0 {
        return 0.0;
    }
    high * random.between(-1.0, 1.0) / (1u64 << 53) as f64
}
