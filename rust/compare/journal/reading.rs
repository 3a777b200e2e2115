// Scan, the part and the mark, plain and by the profile, over random bytes, valid journals, altered ones, cuts at every length, and lengths
// beyond. The bytes behind the length are random where they stand.

use super::alter::{any_of_profile, byte_altered, field_altered};
use super::run::{compare_groups, Group, Run};
use crate::options::Options;
use crate::tally::Totals;
use inputs::journal::{LARGEST, SMALLEST};
use inputs::random::Random;
use reference::profile::Rule;
use reference::samples::{filling, full, joined, profile_records, records};
use reference::scan::{scan_all, MAX_LENGTH};

const GROUPS: [Group; 9] = [
    ("journal, random bytes", 300_000, random_bytes),
    ("journal, whole records", 200_000, whole_records),
    ("journal, one field altered", 600_000, one_field_altered),
    ("journal, one byte altered", 400_000, one_byte_altered),
    ("journal, cut at every length", 1_000, every_cut),
    ("journal, lengths beyond", 50_000, lengths_beyond),
    ("journal, full journals", 20, full_journals),
    ("journal, profile records", 100_000, of_profile),
    ("journal, profile, cut at every length", 60, profile_cut),
];

pub fn compare(options: &Options, totals: &mut Totals) {
    compare_groups(&GROUPS, options, totals);
}

/// Compares all three calls, plain and by the profile, on the first `len` bytes of a slice; the plain ones read at the edges of the records'
/// number and at random, the others near it.
fn compare_at(random: &mut Random, run: &mut Run, v: &[u8], len: usize) {
    let input = || format!("length {len} in {}", hex(v));
    for rule in [Rule::Plain, Rule::Profile] {
        let (status, entries) = scan_all(rule, v, len);
        run.take_scan(rule, (v, len), status, input);
        let count = entries.len();
        let near = random.below(count as u64 + 3) as usize;
        let huge = random.bits() as usize;
        let every: &[usize] = match rule {
            Rule::Plain => &[0, count.saturating_sub(1), count, near, huge],
            Rule::Profile => &[near],
        };
        for i in every {
            run.take_reading(rule, (v, len, *i), (status, &entries), input);
        }
    }
}

fn hex(v: &[u8]) -> String {
    v.iter().map(|byte| format!("{byte:02x}")).collect()
}

/// Bytes without a form, or as many fields of the start as happen to be right.
fn random_bytes(random: &mut Random, run: &mut Run) {
    let size = random.below(200) as usize;
    let mut v: Vec<u8> = (0..size).map(|_| random.bits() as u8).collect();
    let form = random.whole(1, 2) as u8;
    let start = [
        form,
        0,
        random.bits() as u8,
        0,
        random.whole(0, 33) as u8,
        0,
    ];
    let right = (random.below(7) as usize).min(size);
    v[..right].copy_from_slice(&start[..right]);
    let len = random.below(size as u64 + 1) as usize;
    compare_at(random, run, &v, len);
}

/// Whole records, whose length is the slice's or ends before bytes that do not count.
fn whole_records(random: &mut Random, run: &mut Run) {
    let count = random.below(6);
    let mut v = joined(&records(random, count));
    let len = v.len();
    for _ in 0..random.below(3) * 20 {
        v.push(random.bits() as u8);
    }
    compare_at(random, run, &v, len);
}

/// A field altered; now and then the bytes end inside the journal.
fn one_field_altered(random: &mut Random, run: &mut Run) {
    let count = random.whole(1, 4);
    let some = records(random, count);
    let v = field_altered(random, some);
    let len = match random.below(4) {
        0 => random.below(v.len() as u64 + 1) as usize,
        _ => v.len(),
    };
    compare_at(random, run, &v, len);
}

fn one_byte_altered(random: &mut Random, run: &mut Run) {
    let count = random.whole(1, 3);
    let some = joined(&records(random, count));
    let v = byte_altered(random, some);
    compare_at(random, run, &v, v.len());
}

/// Every length of a journal, in the whole slice and in one that ends there; the journal is right or has a field altered.
fn every_cut(random: &mut Random, run: &mut Run) {
    let count = random.whole(1, 3);
    let some = records(random, count);
    let v = match random.below(2) {
        0 => joined(&some),
        _ => field_altered(random, some),
    };
    for len in 0..=v.len() {
        compare_at(random, run, &v, len);
        compare_at(random, run, &v[..len], len);
    }
}

fn lengths_beyond(random: &mut Random, run: &mut Run) {
    let count = random.below(3);
    let v = joined(&records(random, count));
    let beyond = [
        v.len() + 1,
        v.len() + 33,
        MAX_LENGTH,
        MAX_LENGTH + 1,
        usize::MAX,
        random.bits() as usize,
    ];
    let len = *random.pick(&beyond);
    compare_at(random, run, &v, len);
}

/// A journal of 65,536 bytes, and one of some more: every length next to the longest.
fn full_journals(random: &mut Random, run: &mut Run) {
    let smallest = |_: &mut Random| SMALLEST;
    let largest = |_: &mut Random| LARGEST;
    let mixed = |random: &mut Random| random.whole(SMALLEST as u64, LARGEST as u64) as usize;
    let journals = [
        full(random, smallest),
        full(random, largest),
        full(random, mixed),
        filling(random, MAX_LENGTH + 700, mixed),
    ];
    for v in &journals {
        for len in [
            MAX_LENGTH - 1,
            MAX_LENGTH,
            MAX_LENGTH + 1,
            v.len(),
            v.len() + 1,
        ] {
            compare_at(random, run, v, len);
        }
    }
}

/// Records of the profile, one of which may break it; whole, cut, or with a field or a byte altered.
fn of_profile(random: &mut Random, run: &mut Run) {
    let (v, len, _) = any_of_profile(random);
    compare_at(random, run, &v, len);
}

/// Every length of such a journal: a record that breaks the profile is refused when its last byte stands, and not before.
fn profile_cut(random: &mut Random, run: &mut Run) {
    let v = joined(&profile_records(random, 2));
    for len in 0..=v.len() {
        compare_at(random, run, &v, len);
    }
}
