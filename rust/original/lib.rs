// pxfm 0.1.30 as published: each file of the crate is included unchanged, under the module name that it has there.
// The environment variable PXFM_SRC, set by rust/build, says where the files stand.

#[cfg(any(target_feature = "fma", not(target_arch = "x86_64")))]
compile_error!("the reference is the Rust on x86-64 without the fma feature");

#[macro_use]
#[path = "../functions.rs"]
mod functions;

// The crate is a part of the whole, so much of it has no caller here.
#[allow(dead_code)]
mod common {
    include!(concat!(env!("PXFM_SRC"), "/common.rs"));
}
#[allow(dead_code)]
mod double_double {
    include!(concat!(env!("PXFM_SRC"), "/double_double.rs"));
}
mod inverf {
    include!(concat!(env!("PXFM_SRC"), "/err/inverf.rs"));
}
mod inverfc;
#[allow(dead_code)]
mod logs {
    include!(concat!(env!("PXFM_SRC"), "/logs/fast_log_dd.rs"));
}
#[allow(dead_code)]
mod polyeval {
    include!(concat!(env!("PXFM_SRC"), "/polyeval.rs"));
}
#[allow(dead_code)]
mod pow_exec {
    include!(concat!(env!("PXFM_SRC"), "/pow_exec.rs"));
}
#[allow(dead_code)]
mod pow_tables {
    include!(concat!(env!("PXFM_SRC"), "/pow_tables.rs"));
}
#[allow(dead_code)]
mod stand_ins;

// The included files name these modules from the root.
use stand_ins::{bits, dyadic_float, exponents, rounding};

pub use inverfc::branch::{Branch, Way};
pub use inverfc::steps;
pub use inverfc::steps::erf_core_double;

/// The one NaN that leaves either side.
pub const NAN_BITS: u64 = 0x7ff8000000000000;

/// The bits of x, with every NaN as NAN_BITS.
pub fn bits_of(x: f64) -> u64 {
    if x.is_nan() {
        NAN_BITS
    } else {
        x.to_bits()
    }
}

/// The double with the bits x, with every NaN as one: the test that our side makes of each argument.
pub fn of_bits(x: u64) -> f64 {
    if x & (u64::MAX >> 1) > f64::INFINITY.to_bits() {
        f64::NAN
    } else {
        f64::from_bits(x)
    }
}

/// The reciprocal that the logarithms take for the significands of this table index.
pub fn reciprocal(index: u64) -> f64 {
    f64::from_bits(pow_tables::POW_INVERSE[index as usize])
}

/// The Rust's quantile on bit patterns, called as ours is: never inlined, by the C convention.
#[inline(never)]
pub extern "C" fn f_erfcinv_bits(x: u64) -> u64 {
    bits_of(inverfc::f_erfcinv(f64::from_bits(x)))
}

/// The bits that the Rust's quantile itself leaves, a NaN's among them.
pub fn f_erfcinv_raw(x: u64) -> u64 {
    inverfc::f_erfcinv(f64::from_bits(x)).to_bits()
}

/// The bits that the Rust's inverse error function (err/inverf.rs) itself leaves, a NaN's among them.
pub fn f_erfinv_raw(x: u64) -> u64 {
    inverf::f_erfinv(f64::from_bits(x)).to_bits()
}

/// The hardware's square root on bit patterns, called as ours is.
#[inline(never)]
pub extern "C" fn sqrt_bits(x: u64) -> u64 {
    bits_of(f64::from_bits(x).sqrt())
}
