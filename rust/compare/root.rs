// The square root against the hardware's, over edge doubles, random patterns,
// and the hardest cases: exact roots, roots close to halfway between two doubles, and their neighbours.

use crate::options::Options;
use crate::tally::{hex, Tally, Totals};
use inputs::doubles;
use inputs::random::Random;

pub fn compare(options: &Options, totals: &mut Totals) {
    let mut tally = Tally::new("sqrt");
    let mut take = |bits: u64| {
        let sides = [[ours::awaqlla_sqrt_bits(bits)], [original::sqrt_bits(bits)]];
        tally.take(sides, || hex(&[bits]));
    };
    let mut random = options.random("sqrt");
    doubles::edges().into_iter().for_each(&mut take);
    for _ in 0..options.times(500_000) {
        doubles::around(square(&mut random), 1).for_each(&mut take);
        doubles::around(near_tie(&mut random), 1).for_each(&mut take);
    }
    for _ in 0..options.times(10_000_000) {
        take(random.bits());
    }
    tally.close(totals);
}

/// The square of a number of 26 bits: its root is exact.
fn square(random: &mut Random) -> u64 {
    let root = random.below(1 << 26) as f64;
    (root * root).to_bits()
}

/// A double next to the square of a number of 54 bits that is odd: its root is close to halfway between two doubles.
fn near_tie(random: &mut Random) -> u64 {
    let halfway = u128::from(random.whole(1 << 52, (1 << 53) - 1)) * 2 + 1;
    ((halfway * halfway) as f64).to_bits()
}
