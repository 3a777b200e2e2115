// Prints the stored list of the quantile, lines of an input's bits and the Rust's answer's bits as the program replay_numbers takes them, sorted by branch.
// It has every branch and its edges, and reads every entry of the logarithms' tables through both logarithms.
// Given chances, it prints those instead, each with the bits of its quantile: tools/leaf-quantiles. Given --quantiles, it prints the quantile of
// every chance, the 999,999 lines of docs/DEFINITION.md, section 13.

use inputs::doubles::{around, edges};
use inputs::quantile::{
    bin_middle, chance, compose, mirrored, root_two_splits, ABOVE_ONE, BELOW_ONE, BINS, CHANCES,
    CUTS, DIRECT_EXPONENTS, ENDS, FMA_TELLING, MIRRORED_EXPONENTS,
};
use inputs::random::Random;
use original::{f_erfcinv_bits, Branch};
use std::io::{BufWriter, Write};
use std::ops::Range;

fn main() {
    let words: Vec<String> = std::env::args().skip(1).collect();
    if words.is_empty() {
        print_list();
    }
    if words == ["--quantiles"] {
        print_quantiles().expect("standard output can be written");
        return;
    }
    for word in words {
        let c = word.parse().expect("a chance in a million");
        println!("{c} {:016x}", f_erfcinv_bits(chance(c)));
    }
}

fn print_quantiles() -> std::io::Result<()> {
    let mut out = BufWriter::new(std::io::stdout().lock());
    for x in CHANCES.map(chance) {
        writeln!(out, "{:016x}", f_erfcinv_bits(x))?;
    }
    out.flush()
}

fn print_list() {
    let mut list = chosen();
    list.extend(drawn(&mut Random::new(1)));
    list.sort_unstable();
    list.dedup();
    list.sort_by_key(|bits| Branch::of(*bits));
    for bits in list {
        println!("q {bits:016x} {:016x} 00000000", f_erfcinv_bits(bits));
    }
}

/// Edges of all kinds, and an input in the middle of every bin of both tables.
fn chosen() -> Vec<u64> {
    let mut list = edges();
    list.extend(ENDS.iter().flat_map(|bits| around(*bits, 4)));
    list.extend(CUTS.iter().flat_map(|x| around(x.to_bits(), 8)));
    list.extend(FMA_TELLING);
    list.extend(root_two_splits(1).step_by(17));
    list.extend(bin_middles(DIRECT_EXPONENTS));
    list.extend(bin_middles(MIRRORED_EXPONENTS).map(mirrored));
    list.extend([1, 10, 100, 1_000, 10_000, 100_000, 500_000, 999_999].map(chance));
    list
}

/// The middle of every bin, each at another exponent of the range.
fn bin_middles(exponents: Range<u64>) -> impl Iterator<Item = u64> {
    let fields = exponents.cycle().step_by(7);
    (0..BINS)
        .zip(fields)
        .map(|(index, field)| compose(field, bin_middle(index)))
}

/// Random doubles of each range, and random chances.
fn drawn(random: &mut Random) -> Vec<u64> {
    let mut list: Vec<u64> = (0..100)
        .map(|_| chance(random.whole(*CHANCES.start(), *CHANCES.end())))
        .collect();
    for range in BELOW_ONE.iter().chain(&ABOVE_ONE) {
        list.extend((0..140).map(|_| range.draw(random)));
        list.extend((0..90).map(|_| range.draw_crowded(random)));
    }
    list
}
