// The product's pair beside exact whole numbers (request 2026-05): low part plus high part is the product of the factors, for
// factors that are zero or between 2^-400 and 2^400 in size. Outside it need not be: inputs that show it are tried too.

use crate::options::Options;
use crate::tally::{hex, Tally, Totals};
use inputs::random::Random;

/// The exponents of the range's ends.
const ENDS: [i64; 2] = [-400, 400];

/// Low halves at which a splitting rounds up, down, or to an even high half: the lowest 27 digits of a significand.
const LOW_HALVES: [u64; 6] = [0, 1, (1 << 26) - 1, 1 << 26, (1 << 26) + 1, (1 << 27) - 1];

/// Factors beyond the range whose pair is not their product: its last digit is below the smallest double, a product of halves
/// or the product itself overflows, a splitting overflows.
const OUTSIDE: [[u64; 2]; 3] = [
    [0x2190_0000_0000_0001, 0x2190_0000_0000_0001], // (1 + 2^-52) * 2^-486, squared
    [0x5ff0_0000_0000_0000, 0x5ff0_0000_0000_0000], // 2^512, squared
    [0x7e40_0000_0000_0000, 0x3ff0_0000_0000_0000], // 2^997, once
];

pub fn compare(options: &Options, totals: &mut Totals) {
    let mut tally = Tally::new("from_exact_mult, exact");
    let mut random = options.random("exact");
    for a in edges() {
        for b in edges() {
            take([a, b], &mut tally);
        }
    }
    for low_a in LOW_HALVES {
        for low_b in LOW_HALVES {
            for _ in 0..options.times(1000) {
                take(
                    [ending(low_a, &mut random), ending(low_b, &mut random)],
                    &mut tally,
                );
            }
        }
    }
    for _ in 0..options.times(1_000_000) {
        take([inside(&mut random), inside(&mut random)], &mut tally);
    }
    tally.close(totals);
    let mut tally = Tally::new("from_exact_mult, beyond its range");
    for factors in OUTSIDE {
        let exact = sum(factors) == Some(product(factors));
        tally.take([[u64::from(exact)], [0]], || hex(&factors));
    }
    tally.close(totals);
}

/// Low part plus high part of our pair, and the product, as the two words of a whole number.
fn take(factors: [u64; 2], tally: &mut Tally) {
    let words = |n: Option<i128>| n.map_or([u64::MAX; 2], |n| [(n >> 64) as u64, n as u64]);
    tally.take([words(sum(factors)), words(Some(product(factors)))], || {
        hex(&factors)
    });
}

/// The ends of the range and the doubles next to them inside it, zero, and the sizes 1 and 3, under both signs.
fn edges() -> Vec<u64> {
    let [least, most] = ENDS.map(|end| ((1023 + end) as u64) << 52);
    let sizes = [
        0,
        least,
        least + 1,
        most - 1,
        most,
        1f64.to_bits(),
        3f64.to_bits(),
    ];
    sizes
        .into_iter()
        .flat_map(|bits| [bits, bits | 1 << 63])
        .collect()
}

/// A double of either sign inside the range.
fn inside(random: &mut Random) -> u64 {
    let [least, most] = ENDS.map(|end| ((1023 + end) as u64) << 52);
    random.whole(least, most - 1) | random.bits() & 1 << 63
}

/// One with this low half.
fn ending(low: u64, random: &mut Random) -> u64 {
    inside(random) >> 27 << 27 | low
}

/// A finite double as a whole number and the exponent of its unit.
fn whole(bits: u64) -> (i128, i64) {
    let exponent = (bits >> 52 & 0x7ff) as i64;
    let digits = (bits & ((1 << 52) - 1)) as i128;
    let (size, unit) = match exponent {
        0 => (digits, -1074),
        _ => (digits + (1 << 52), exponent - 1075),
    };
    (if bits >> 63 == 1 { -size } else { size }, unit)
}

/// The product, in units of the factors' last places.
fn product(factors: [u64; 2]) -> i128 {
    whole(factors[0]).0 * whole(factors[1]).0
}

/// Low part plus high part of our pair in the same units, if they are finite and whole numbers of them.
fn sum(factors: [u64; 2]) -> Option<i128> {
    let unit = whole(factors[0]).1 + whole(factors[1]).1;
    let mut pair = [0; 2];
    ours::px_step(
        ours::number::dd_from_exact_mult,
        &[factors[0], factors[1], 0, 0, 0, 0],
        &mut pair,
    );
    let [low, high] = pair.map(|bits| in_units(bits, unit));
    Some(low? + high?)
}

fn in_units(bits: u64, unit: i64) -> Option<i128> {
    let (number, own) = whole(bits);
    let finite = bits >> 52 & 0x7ff != 0x7ff;
    let shift = own - unit;
    match shift {
        _ if !finite => None,
        _ if number == 0 => Some(0),
        0..=70 => Some(number << shift),
        -52..0 if number % (1 << -shift) == 0 => Some(number >> -shift),
        _ => None,
    }
}
