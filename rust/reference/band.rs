// Document 02, 2026-11: the inverse error function over the Rust's own erf_core, and the band around the mean, in f64, one rounding an operation.
// It is not the Rust's function of err/inverf.rs, which has other steps.

use crate::limit::{count_fits, time_fits};

/// A share w is 1 to 999,999 in a million.
pub const LAST_SHARE: u32 = 999_999;

/// ±0 gives itself, ±1 the infinity of that sign, beyond and NaN give NaN; else erf_core of the size with low part +0, with the argument's sign.
pub fn f_erfinv(x: f64) -> f64 {
    let size = x.abs();
    if size == 0.0 {
        x
    } else if size == 1.0 {
        f64::INFINITY.copysign(x)
    } else if size < 1.0 {
        original::erf_core_double(0.0, size).copysign(x)
    } else {
        f64::NAN
    }
}

/// The low and the high end, or the first refusal that holds: 18, then 6.
#[allow(clippy::approx_constant)] // the digits are the paper's
pub fn band(times: &[u32], share: u32) -> Result<[f64; 2], u64> {
    if share == 0 || share > LAST_SHARE {
        return Err(18);
    }
    if !count_fits(times.len()) || !times.iter().all(|time| time_fits(*time)) {
        return Err(6);
    }
    let n = times.len() as u64;
    let sum: u64 = times.iter().map(|time| u64::from(*time)).sum();
    let squares: u64 = times.iter().map(|time| u64::from(*time).pow(2)).sum();
    let mean = sum as f64 / n as f64;
    let spread = ((n * squares - sum * sum) as f64 / (n * (n - 1)) as f64).sqrt();
    let half = (spread * 1.4142135623730951) * f_erfinv(f64::from(share) / 1_000_000.0);
    Ok([mean - half, mean + half])
}
