// The archive of crate capi_c without the library's guard, which sets the floating-point environment around each call: the port is timed by it beside the
// Rust, which has no guard either. And what the guard costs: the same functions through the archive and through the library.

use crate::{call_bits, drawn, race, OnBits, CALLS};
use inputs::quantile::{chance, BELOW_ONE, CHANCES};
use inputs::random::Random;

unsafe extern "C" {
    pub safe fn sqrt_bits(x: u64) -> u64;
    pub safe fn f_erfcinv_bits(x: u64) -> u64;
    safe fn f_erfinv_bits(x: u64) -> u64;
}

pub fn rows(random: &mut Random) {
    println!();
    println!("| | archive, ns | library, ns | the guard, ns |");
    println!("|---|---|---|---|");
    let chances = drawn(|| chance(random.whole(*CHANCES.start(), *CHANCES.end())));
    row("f_erfcinv, chances", [f_erfcinv_bits, ours::awaqlla_f_erfcinv_bits], &chances);
    let last = BELOW_ONE.last().expect("a range");
    let near_one = drawn(|| last.draw(random));
    row(&format!("f_erfcinv, {}", last.name), [f_erfcinv_bits, ours::awaqlla_f_erfcinv_bits], &near_one);
    row("f_erfinv, the same", [f_erfinv_bits, ours::awaqlla_f_erfinv_bits], &near_one);
    row("sqrt, the same", [sqrt_bits, ours::awaqlla_sqrt_bits], &near_one);
}

fn row(name: &str, sides: [OnBits; 2], inputs: &[u64]) {
    let times = race(sides, inputs, call_bits);
    let [archive, library] = times.map(|time| time.as_secs_f64() * 1e9 / CALLS as f64);
    println!("| {name} | {archive:.1} | {library:.1} | {:.1} |", library - archive);
}
