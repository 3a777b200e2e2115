// Both logarithms where every digit of their tables shows: next to the inverse of an entry's reciprocal
// their polynomial is almost 0 and hides nothing of the entry's low part.

use crate::functions::{answers, Input};
use crate::tally::{hex, Tally, Totals};
use inputs::doubles::around;
use inputs::quantile::BINS;
use original::reciprocal;
use ours::number;

/// Doubles to each side of an inverse.
const REACH: u64 = 20;

/// Exponents of 2 that the inverses are moved by; at 0 the constant for log 2 has no part in the result.
const EXPONENTS: [i64; 6] = [0, -1, 1, -4, -30, -1000];

pub fn compare(totals: &mut Totals) {
    compare_function(
        "px_fast_log_dd, tables",
        number::px_fast_log_dd,
        |bits| [0, bits, 0, 0, 0, 0],
        totals,
    );
    compare_function(
        "px_fast_log_d_to_dd, tables",
        number::px_fast_log_d_to_dd,
        |bits| [bits, 0, 0, 0, 0, 0],
        totals,
    );
}

fn compare_function(name: &str, number: u32, input: fn(u64) -> Input, totals: &mut Totals) {
    let mut tally = Tally::new(name);
    for bits in arguments() {
        tally.take(answers(number, &input(bits)), || hex(&[bits]));
    }
    tally.close(totals);
}

fn arguments() -> impl Iterator<Item = u64> {
    let inverses = (0..BINS).map(|index| 1.0 / reciprocal(index));
    let moved = inverses.flat_map(|x| EXPONENTS.map(|e| x.to_bits().wrapping_add_signed(e << 52)));
    moved.flat_map(|bits| around(bits, REACH))
}
