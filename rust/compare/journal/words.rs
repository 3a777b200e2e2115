// The reference's answers in the words of the C interface, and the kinds of answers, counted.
// A kind is the answer's word with the refusal's number.

use reference::profile::Rule;
use reference::scan::{Entry, Status, ABSENT};
use std::collections::BTreeMap;

pub fn scan_words(status: Status) -> [u64; 3] {
    match status {
        Status::Whole { records, committed } => [0, records as u64, committed as u64],
        Status::Torn { records, committed } => [1, records as u64, committed as u64],
        Status::Damaged { number, place } => [2, number, place as u64],
    }
}

/// The part's start and length; none where scan refuses or there is no record i.
pub fn part_words(status: Status, entries: &[Entry], i: usize) -> [u64; 2] {
    match (status, entries.get(i)) {
        (Status::Damaged { .. }, _) | (_, None) => [0, 0],
        (_, Some(entry)) => [entry.start as u64, entry.size as u64],
    }
}

/// The mark's letter, or scan's refusal, or that there is no record i.
pub fn mark_word(status: Status, entries: &[Entry], i: usize) -> u64 {
    match status {
        Status::Damaged { number, .. } => number,
        _ => entries.get(i).map_or(ABSENT, |entry| u64::from(entry.mark)),
    }
}

/// A rule's word in front of a call's.
pub fn by(rule: Rule) -> &'static str {
    match rule {
        Rule::Plain => "",
        Rule::Profile => "profile ",
    }
}

/// How often each kind of answer came.
#[derive(Default)]
pub struct Kinds {
    counts: BTreeMap<String, u64>,
}

impl Kinds {
    pub fn add(&mut self, kind: String) {
        *self.counts.entry(kind).or_default() += 1;
    }

    pub fn add_scan(&mut self, rule: Rule, words: [u64; 3]) {
        let by = by(rule);
        self.add(match words[0] {
            0 => format!("{by}scan, whole"),
            1 => format!("{by}scan, torn"),
            _ => format!("{by}scan, damaged {:>2}", words[1]),
        });
    }

    pub fn add_mark(&mut self, rule: Rule, word: u64) {
        let by = by(rule);
        self.add(if word < u64::from(b'A') {
            format!("{by}mark, refused {word:>2}")
        } else {
            format!("{by}mark, {}", char::from(word as u8))
        });
    }

    pub fn print(&self) {
        for (kind, count) in &self.counts {
            println!("  journal, {kind:<39} {count:>10} answers");
        }
    }
}
