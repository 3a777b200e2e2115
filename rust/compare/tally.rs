// Counts the results of a group of inputs and the differing ones, and shows the first of those.
// A result is one answer, single or of two parts: it differs if any bit of it does.

/// Differing inputs that a group shows.
const SHOWN: u64 = 3;

#[derive(Default)]
pub struct Totals {
    pub results: u64,
    pub differ: u64,
}

pub struct Tally {
    name: String,
    results: u64,
    differ: u64,
}

impl Tally {
    pub fn new(name: impl Into<String>) -> Tally {
        Tally {
            name: name.into(),
            results: 0,
            differ: 0,
        }
    }

    /// Takes a result of ours and the Rust's; the input is put in words only where it is shown.
    pub fn take<const N: usize>(&mut self, sides: [[u64; N]; 2], input: impl Fn() -> String) {
        let [ours, rust] = sides;
        self.hold(ours == rust, || {
            let (ours, rust) = (hex(&ours), hex(&rust));
            format!("{} gives {ours}, in the Rust {rust}", input())
        });
    }

    /// Takes a result that is as it must be, or counts as one that differs; what it is is put in words only where it is shown.
    pub fn hold(&mut self, holds: bool, words: impl Fn() -> String) {
        self.results += 1;
        if holds {
            return;
        }
        self.differ += 1;
        if self.differ <= SHOWN {
            println!("  {}: {}", self.name, words());
        }
    }

    /// Prints the group's line and adds it to the totals.
    pub fn close(self, totals: &mut Totals) {
        println!(
            "{:<40} {:>10} results, {} differ",
            self.name, self.results, self.differ
        );
        totals.results += self.results;
        totals.differ += self.differ;
    }
}

/// The least and the greatest of the limits met.
#[derive(Default)]
pub struct Extremes {
    met: Option<[f64; 2]>,
}

impl Extremes {
    /// Takes a limit; one that is not finite counts as a result that differs.
    pub fn take(&mut self, limit: f64, tally: &mut Tally, input: impl Fn() -> String) {
        if !limit.is_finite() {
            tally.take([[0], [1]], || format!("a finite limit, {}", input()));
        }
        let [least, greatest] = self.met.unwrap_or([limit; 2]);
        self.met = Some([least.min(limit), greatest.max(limit)]);
    }

    /// Prints the two with their bits, if there was a limit.
    pub fn print(&self, name: &str) {
        if let Some(met) = self.met {
            let [least, greatest] = met.map(|x| format!("{x} ({:016x})", x.to_bits()));
            println!("{name}, finite: from {least} to {greatest}");
        }
    }
}

/// Bit patterns as 16 hexadecimal digits each.
pub fn hex(patterns: &[u64]) -> String {
    let words: Vec<String> = patterns.iter().map(|bits| format!("{bits:016x}")).collect();
    words.join(" ")
}
