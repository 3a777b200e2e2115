// The order that readers of limits and bands take for granted, over all 999,998 neighbours, ours and the Rust's: the quantile falls
// strictly from chance 1 to 999,999, and the inverse error function rises strictly from share 1 to 999,999.

use crate::tally::{hex, Tally, Totals};
use inputs::inverse::{share, SHARES};
use inputs::quantile::{chance, CHANCES};
use std::cmp::Ordering::{self, Greater, Less};

pub fn compare(totals: &mut Totals) {
    let chances = || CHANCES.map(chance);
    let shares = || SHARES.map(share);
    neighbours(
        "f_erfcinv falls, ours",
        chances().map(|x| ours::awaqlla_f_erfcinv_bits(x)),
        Less,
        totals,
    );
    neighbours(
        "f_erfcinv falls, the Rust's",
        chances().map(original::f_erfcinv_raw),
        Less,
        totals,
    );
    neighbours(
        "f_erfinv rises, ours",
        shares().map(|x| ours::awaqlla_f_erfinv_bits(x)),
        Greater,
        totals,
    );
    neighbours(
        "f_erfinv rises, the Rust's",
        shares().map(original::f_erfinv_raw),
        Greater,
        totals,
    );
}

/// Holds that each answer lies so beside the one before it.
fn neighbours(
    name: &str,
    mut answers: impl Iterator<Item = u64>,
    side: Ordering,
    totals: &mut Totals,
) {
    let mut tally = Tally::new(name);
    let mut before = answers.next().unwrap_or_default();
    for answer in answers {
        let order = f64::from_bits(answer).partial_cmp(&f64::from_bits(before));
        tally.hold(order == Some(side), || {
            format!("{} comes after {}", hex(&[answer]), hex(&[before]))
        });
        before = answer;
    }
    tally.close(totals);
}
