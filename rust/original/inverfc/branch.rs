// Which way through f_erfcinv an input takes, found by calling the Rust's own pieces.
// The comparison counts its inputs by it, and the stored list is sorted by it.

use super::{erf_core, inverf_0p06_to_0p75};
use crate::double_double::DoubleDouble;
use std::fmt;

/// The ways in the order of the code; h is the high part of the argument of `erf_core`.
#[derive(Clone, Copy, PartialEq, Eq, PartialOrd, Ord)]
pub enum Way {
    Zero,
    Two,
    NotANumber,
    One,
    DirectLong,
    DirectSmall,
    Series3,
    Series5,
    Quick,
    Slow,
    TailSmall,
    TailLong,
}

/// A way, and whether the input is above 1, where the answer changes its sign.
#[derive(Clone, Copy, PartialEq, Eq, PartialOrd, Ord)]
pub struct Branch {
    pub way: Way,
    pub above_one: bool,
}

impl Branch {
    /// The branch that the double with these bits takes.
    pub fn of(bits: u64) -> Branch {
        let x = f64::from_bits(bits);
        let way = early_way(x).unwrap_or_else(|| core_way(core_argument(x)));
        Branch {
            way,
            above_one: way >= Way::Series3 && x > 1.0,
        }
    }
}

impl fmt::Display for Branch {
    fn fmt(&self, f: &mut fmt::Formatter) -> fmt::Result {
        let label = match self.way {
            Way::Zero => "x = 0",
            Way::Two => "x = 2",
            Way::NotANumber => "x negative, above 2 or NaN",
            Way::One => "x = 1",
            Way::DirectLong => "x < 0.0001",
            Way::DirectSmall => "x < 0.1",
            Way::Series3 => "h <= 0.0095",
            Way::Series5 => "h <= 0.06",
            Way::Quick => "h <= 0.75, quick",
            Way::Slow => "h <= 0.75, slow",
            Way::TailSmall => "h < 0.9999",
            Way::TailLong => "h < 1",
        };
        let side = if self.above_one { ", x > 1" } else { "" };
        f.pad(&format!("{label}{side}"))
    }
}

/// The ways that end before `erf_core`.
fn early_way(x: f64) -> Option<Way> {
    if x == 0.0 {
        Some(Way::Zero)
    } else if x == 2.0 {
        Some(Way::Two)
    } else if x.is_nan() || !(0.0..2.0).contains(&x) {
        Some(Way::NotANumber)
    } else if x == 1.0 {
        Some(Way::One)
    } else if x < 0.0001 {
        Some(Way::DirectLong)
    } else if x < 0.1 {
        Some(Way::DirectSmall)
    } else {
        None
    }
}

/// The pair that f_erfcinv hands to `erf_core`.
fn core_argument(x: f64) -> DoubleDouble {
    let dx = if x > 1.0 {
        DoubleDouble::from_full_exact_sub(2.0, x)
    } else {
        DoubleDouble::new(0.0, x)
    };
    let dx = DoubleDouble::full_add_f64(-dx, 1.0);
    DoubleDouble::from_exact_add(dx.hi, dx.lo)
}

/// The ways of `erf_core`.
fn core_way(x: DoubleDouble) -> Way {
    if x.hi <= 0.0095 {
        Way::Series3
    } else if x.hi <= 0.06 {
        Way::Series5
    } else if x.hi <= 0.75 {
        if same(erf_core(x), inverf_0p06_to_0p75(x)) {
            Way::Slow
        } else {
            Way::Quick
        }
    } else if x.hi < 0.9999 {
        Way::TailSmall
    } else {
        Way::TailLong
    }
}

/// The slow way answers the slower rational's pair; the quick one's low part is another.
fn same(a: DoubleDouble, b: DoubleDouble) -> bool {
    a.lo.to_bits() == b.lo.to_bits() && a.hi.to_bits() == b.hi.to_bits()
}
