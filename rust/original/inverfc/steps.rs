// The Rust side of the listed functions, by number and on bit patterns, with the C signature that ours has.
// A NaN in an answer is written as NAN_BITS.

use super::{erf_core, inverf_0p06_to_0p75, inverf_asympt_long, inverf_asympt_small};
use crate::{bits_of, of_bits};
use crate::common::{dd_fmla, f_fmla};
use crate::double_double::DoubleDouble;
use crate::logs::{fast_log_d_to_dd, fast_log_dd};
use crate::polyeval::{f_polyeval4, f_polyeval5};
use crate::pow_exec::log_poly_1;
use crate::NAN_BITS;

type Pair = DoubleDouble;

/// The six doubles of a call, taken one after the other from the front.
struct Arguments(std::array::IntoIter<f64, 6>);

impl Arguments {
    fn next(&mut self) -> f64 {
        self.0.next().expect("a listed function takes six doubles at the most")
    }
}

/// A kind of argument: a double, or a pair as low part and high part.
trait Argument {
    fn take(from: &mut Arguments) -> Self;
}

impl Argument for f64 {
    fn take(from: &mut Arguments) -> f64 {
        from.next()
    }
}

impl Argument for Pair {
    fn take(from: &mut Arguments) -> Pair {
        let lo = from.next();
        let hi = from.next();
        Pair::new(lo, hi)
    }
}

/// An answer as two bit patterns: low part and high part, or 0 and the double.
trait Answer {
    fn to_parts(self) -> [u64; 2];
}

impl Answer for f64 {
    fn to_parts(self) -> [u64; 2] {
        [0, bits_of(self)]
    }
}

impl Answer for Pair {
    fn to_parts(self) -> [u64; 2] {
        [bits_of(self.lo), bits_of(self.hi)]
    }
}

/// What the logarithms take: no caller in the Rust passes anything else.
fn is_positive_finite(x: f64) -> bool {
    x > 0.0 && x < f64::INFINITY
}

macro_rules! define {
    ($($number:literal $name:ident ($($arg:ident: $kind:ident $(in $ranges:expr)?),*) $(if $holds:expr)? => $call:expr;)*) => {
        /// The listed function with this number, called as ours is: never inlined, by the C convention, through one choice by
        /// number, and with all six patterns read as doubles first. A pair of NaN where no function has the number.
        #[inline(never)]
        pub extern "C" fn px_step(number: u32, input: &[u64; 6], out: &mut [u64; 2]) {
            let mut from = Arguments(input.map(of_bits).into_iter());
            *out = match number {
                $($number => {
                    $(let $arg = <$kind as Argument>::take(&mut from);)*
                    if true $(&& $holds)? { Answer::to_parts($call) } else { [NAN_BITS; 2] }
                })*
                _ => [NAN_BITS; 2],
            };
        }
    };
}

with_functions!(define);

/// `erf_core` of a pair with a high part below 1, made a double.
pub fn erf_core_double(lo: f64, hi: f64) -> f64 {
    erf_core(Pair::new(lo, hi)).to_f64()
}
