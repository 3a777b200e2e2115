// The scan of journals beside rust/reference's, in bytes a second: of a quarter of the greatest length and full, of the smallest and the
// largest records, with chances that stand in the record before too and with chances that never do.

use crate::race;
use inputs::journal::{rising_chances, LARGEST, READ, SMALLEST};
use inputs::random::Random;
use reference::samples::filling_with;
use reference::scan::{scan, Status, MAX_LENGTH};

type OnJournal = fn(&[u8]) -> u64;

/// A record's chances where they repeat: the first of these, as many as it has.
const REPEATED: [u32; 8] = [1, 10, 100, 1_000, 10_000, 100_000, 250_000, 500_000];

pub fn rows(random: &mut Random) {
    println!();
    println!("| scan of | ours, MB/s | Rust, MB/s | ours / Rust, time |");
    println!("|---|---|---|---|");
    for total in [MAX_LENGTH / 4, MAX_LENGTH] {
        for (name, size) in [("smallest", SMALLEST), ("largest", LARGEST)] {
            row(&format!("{total} bytes, {name} records, chances that repeat"), || {
                filling_with(random, total, |_| size, repeat)
            });
            row(&format!("{total} bytes, {name} records, chances that never repeat"), || {
                let mut last = Vec::new();
                filling_with(random, total, |_| size, |random, chances| renew(random, &mut last, chances))
            });
        }
    }
}

/// Of four journals.
fn row(name: &str, journal: impl FnMut() -> Vec<u8>) {
    let journals: Vec<Vec<u8>> = std::iter::repeat_with(journal).take(4).collect();
    let bytes: usize = journals.iter().map(Vec::len).sum();
    let times = race([scan_ours as OnJournal, scan_reference], &journals, |scan, v| scan(v));
    let [ours, rust] = times.map(|time| time.as_secs_f64());
    let [ours_rate, rust_rate] = [ours, rust].map(|time| bytes as f64 / time / 1e6);
    println!("| {name} | {ours_rate:.1} | {rust_rate:.1} | {:.2} |", ours / rust);
}

fn repeat(_: &mut Random, chances: &mut Vec<u32>) {
    *chances = REPEATED[..chances.len()].to_vec();
}

/// Draws chances again until none stands in its place in the record before.
fn renew(random: &mut Random, last: &mut Vec<u32>, chances: &mut Vec<u32>) {
    while last.iter().zip(&*chances).any(|(before, chance)| before == chance) {
        *chances = rising_chances(random, chances.len(), READ);
    }
    last.clone_from(chances);
}

/// The number of records that stand, where the journal is whole.
fn scan_ours(v: &[u8]) -> u64 {
    ours::awaqlla_scan(v, v.len())[1]
}

fn scan_reference(v: &[u8]) -> u64 {
    match scan(v, v.len()) {
        Status::Whole { records, .. } => records as u64,
        other => panic!("a full journal scans as {other:?}"),
    }
}
