// The inverse error function: ours against document 02's, worked in rust/reference over the Rust's own erf_core, all bits; and, beside it, what
// the Rust's function of err/inverf.rs answers. That one has other steps: what differs is counted and listed, and is no fault where the rule
// of docs/DIFFERENCES.md says that it differs, and how; anything else is.

use crate::beside::differing;
use crate::options::Options;
use crate::tally::{hex, Tally, Totals};
use inputs::doubles::{around, edges};
use inputs::inverse::{bin_edges, share, CUTS, ENDS, RANGES, SHARES};
use reference::band::f_erfinv;

/// Doubles to each side of an edge.
const REACH: u64 = 400;

const SIGN: u64 = 1 << 63;

/// The list's first lines.
const HEAD: [&str; 4] = [
    "# f_erfinv beside the Rust's err/inverf.rs (docs/DIFFERENCES.md). A line for each group of inputs: how many differ,",
    "# and by how many units of the last place at the most. Below the edge doubles, the ends and cuts with their neighbours, and the",
    "# shares, w / 1000000, each input that differs, our answer, the Rust's. Every input of every group differs, or not, as the rule",
    "# of docs/DIFFERENCES.md says, with these answers.",
];

pub fn compare(options: &Options, totals: &mut Totals) -> Result<(), String> {
    let mut run = Run {
        totals,
        lines: HEAD.map(String::from).to_vec(),
    };
    run.group("edge doubles", true, edges());
    run.group(
        "ends",
        true,
        ENDS.iter()
            .flat_map(|bits| both_signs(around(*bits, REACH))),
    );
    run.group(
        "cuts",
        true,
        CUTS.iter()
            .flat_map(|x| both_signs(around(x.to_bits(), REACH))),
    );
    run.group("logarithm's bins", false, both_signs(bin_edges()));
    run.group("shares, w / 1000000", true, SHARES.map(share));
    for range in &RANGES {
        let mut random = options.random(range.name);
        let count = options.times(1_000_000);
        run.group(
            range.name,
            false,
            (0..count).map(|_| range.draw(&mut random) | random.bits() & SIGN),
        );
    }
    let mut random = options.random("inverse, random bits");
    let count = options.times(10_000_000);
    run.group("random bits", false, (0..count).map(|_| random.bits()));
    match &options.beside {
        None => Ok(()),
        Some(path) => std::fs::write(path, run.lines.join("\n") + "\n")
            .map_err(|error| format!("{path}: {error}")),
    }
}

fn both_signs(inputs: impl Iterator<Item = u64>) -> impl Iterator<Item = u64> {
    inputs.flat_map(|bits| [bits, bits | SIGN])
}

/// The totals, and the lines of the list.
struct Run<'a> {
    totals: &'a mut Totals,
    lines: Vec<String>,
}

impl Run<'_> {
    /// Compares at these inputs with document 02's function, and counts what differs from the Rust's; listed: input by input.
    fn group(&mut self, name: &str, listed: bool, inputs: impl IntoIterator<Item = u64>) {
        let mut tally = Tally::new(format!("f_erfinv, {name}"));
        let mut rule = Tally::new(format!("f_erfinv, rule, {name}"));
        let (mut count, mut differ, mut most) = (0u64, 0u64, 0);
        let mut list = Vec::new();
        for bits in inputs {
            let answer = ours::awaqlla_f_erfinv_bits(bits);
            let paper = original::bits_of(f_erfinv(f64::from_bits(bits)));
            tally.take([[answer], [paper]], || hex(&[bits]));
            let rust = original::f_erfinv_raw(bits);
            let found = (answer != rust).then_some([answer, rust]);
            rule.hold(found == differing(bits), || said(bits, [answer, rust]));
            count += 1;
            if answer != rust {
                differ += 1;
                most = most.max(place(answer).abs_diff(place(rust)));
                if listed {
                    list.push(hex(&[bits, answer, rust]));
                }
            }
        }
        tally.close(self.totals);
        rule.close(self.totals);
        let line = format!("{name}: {count} inputs, {differ} differ, by {most} at the most");
        println!("  beside err/inverf.rs: {line}");
        self.lines.push(line);
        self.lines.append(&mut list);
    }
}

/// An input at which the rule does not hold, in words.
fn said(bits: u64, answers: [u64; 2]) -> String {
    let told = match differing(bits) {
        Some(told) => hex(&told),
        None => "that they agree".to_string(),
    };
    format!(
        "at {} ours and err/inverf.rs give {}, the rule says {told}",
        hex(&[bits]),
        hex(&answers)
    )
}

/// The place of a double among all doubles in order; +0 and -0 have one.
fn place(bits: u64) -> i64 {
    let size = (bits & !SIGN) as i64;
    if bits & SIGN == 0 {
        size
    } else {
        -size
    }
}
