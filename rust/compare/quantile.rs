// The quantile, over every branch, the doubles around its edges, all chances and random doubles: the bits that the Rust itself leaves, NaN too.
// The lines at the end say how many of these inputs took which way through the Rust.

use crate::options::Options;
use crate::tally::{hex, Tally, Totals};
use inputs::doubles::{around, edges};
use inputs::quantile::{
    bin_edges, chance, root_two_splits, ABOVE_ONE, BELOW_ONE, CHANCES, CUTS, ENDS, FMA_TELLING,
};
use original::{Branch, Way};
use std::collections::BTreeMap;

/// Doubles to each side of an edge.
const REACH: u64 = 400;

pub fn compare(options: &Options, totals: &mut Totals) {
    let mut run = Run {
        totals,
        branches: BTreeMap::new(),
    };
    compare_edges(&mut run);
    compare_ranges(options, &mut run);
    compare_bits(options, &mut run);
    for (branch, count) in &run.branches {
        println!("  f_erfcinv, way {branch:<27} {count:>10} inputs");
    }
}

fn compare_edges(run: &mut Run) {
    run.group("edge doubles", edges());
    run.group("ends", ENDS.iter().flat_map(|bits| around(*bits, REACH)));
    run.group("cuts", CUTS.iter().flat_map(|x| around(x.to_bits(), REACH)));
    run.group("logarithms' split", root_two_splits(REACH));
    run.group("logarithms' bins", bin_edges());
    run.group("fma telling", FMA_TELLING);
    run.group("chances", CHANCES.map(chance));
}

fn compare_ranges(options: &Options, run: &mut Run) {
    for range in BELOW_ONE.iter().chain(&ABOVE_ONE) {
        let mut random = options.random(range.name);
        let count = options.times(2_000_000);
        let slow = run.group(range.name, (0..count).map(|_| range.draw(&mut random)));
        if slow > 0 {
            println!("  {slow} of them took the rounding test's slow way");
        }
        let ends = format!("{}, to its ends", range.name);
        let count = options.times(500_000);
        run.group(&ends, (0..count).map(|_| range.draw_crowded(&mut random)));
    }
}

fn compare_bits(options: &Options, run: &mut Run) {
    let mut random = options.random("random bits");
    run.group(
        "random bits",
        (0..options.times(10_000_000)).map(|_| random.bits()),
    );
    let below_two = 2f64.to_bits();
    run.group(
        "random bits below 2",
        (0..options.times(5_000_000)).map(|_| random.below(below_two)),
    );
}

/// The inputs so far, by the branch that they took.
struct Run<'a> {
    totals: &'a mut Totals,
    branches: BTreeMap<Branch, u64>,
}

impl Run<'_> {
    /// Compares at these inputs; says how many of them took the rounding test's slow way.
    fn group(&mut self, name: &str, inputs: impl IntoIterator<Item = u64>) -> u64 {
        let mut tally = Tally::new(format!("f_erfcinv, {name}"));
        let mut slow = 0;
        for bits in inputs {
            let sides = [ours::awaqlla_f_erfcinv_bits(bits), original::f_erfcinv_raw(bits)];
            tally.take(sides.map(|answer| [answer]), || hex(&[bits]));
            let branch = Branch::of(bits);
            *self.branches.entry(branch).or_default() += 1;
            slow += u64::from(branch.way == Way::Slow);
        }
        tally.close(self.totals);
        slow
    }
}
