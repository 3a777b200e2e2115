// The merge of two journals against rust/reference's: the answer and every byte of the third buffer, for small journals that share records and
// days, whole, torn and damaged; for full ones; and lists of appends from a merged journal.

use super::alter::{byte_altered, field_altered};
use super::history::History;
use super::run::{compare_groups, Group, Run};
use crate::options::Options;
use crate::tally::Totals;
use inputs::journal::{record_of_size, LARGEST, READ, SMALLEST};
use inputs::random::Random;
use reference::limit::Form;
use reference::merge::{merge, Merged};
use reference::model::Model;
use reference::record::Record;
use reference::samples::{encoded, filling, fitting, joined, records};
use reference::scan::MAX_LENGTH;

const GROUPS: [Group; 4] = [
    ("merge, small journals", 100_000, small),
    ("merge, any journals", 100_000, any_inputs),
    ("merge, full journals", 40, full),
    ("append, histories on a merged journal", 4_000, on_merged),
];

pub fn compare(options: &Options, totals: &mut Totals) {
    compare_groups(&GROUPS, options, totals);
}

fn merged_words(merged: Merged) -> [u64; 4] {
    match merged {
        Merged::Length(length) => [0, length as u64, 0, 0],
        Merged::NoRoom => [1, 9, 0, 0],
        Merged::OldForm { place } => [1, 13, place as u64, 0],
        Merged::Damaged {
            number,
            place,
            whose,
        } => [2, number, place as u64, whose as u64],
        Merged::Torn { whose } => [3, 16, 0, whose as u64],
    }
}

fn kind(words: [u64; 4]) -> String {
    match words {
        [0, ..] => "merge, merged".into(),
        [1, number, ..] => format!("merge, declined {number:>2}"),
        [2, number, _, whose] => format!("merge, damaged {number:>2} of {whose}"),
        [.., whose] => format!("merge, torn 16 of {whose}"),
    }
}

impl Run<'_> {
    /// One merge: its answer and every byte of the third buffer after it, both of which it hands on.
    fn take_merge(
        &mut self,
        a: (&[u8], usize),
        b: (&[u8], usize),
        out: Vec<u8>,
    ) -> (Merged, Vec<u8>) {
        let (mut ours, mut expected) = (out.clone(), out);
        let words = ours::awaqlla_merge(a, b, &mut ours);
        let merged = merge(a, b, &mut expected);
        let sides = [words, merged_words(merged)];
        self.kinds.add(kind(sides[1]));
        let input = || format!("merge of {a:02x?} and {b:02x?} into {}", ours.len());
        self.tally.take(sides, input);
        let differs = ours
            .iter()
            .zip(&expected)
            .position(|(x, y)| x != y)
            .map_or(0, |place| place as u64 + 1);
        self.tally
            .take([[differs], [0]], || format!("bytes after {}", input()));
        (merged, ours)
    }
}

/// Two lists of records over a few days that share some records; one list may hold a record twice.
fn pair(random: &mut Random) -> [Vec<Record>; 2] {
    let count = random.below(10);
    let pool = records(random, count);
    let turns = random.below(4) == 0;
    [(); 2].map(|()| {
        let mut list: Vec<Record> = Vec::new();
        for record in &pool {
            let drawn = match random.below(8) {
                0 => vec![record.clone(); 2],
                1 if turns => vec![record.in_other_form()],
                2 => vec![Record {
                    name: vec![random.whole(0x21, 0x7e) as u8],
                    ..record.clone()
                }],
                3..=5 => vec![record.clone()],
                _ => vec![],
            };
            list.extend(drawn);
        }
        list.sort_by_key(|record| (record.form, record.day));
        let rising = list.windows(2).all(|two| two[0].day <= two[1].day);
        if !rising {
            list.retain(|record| record.form == Form::Plain as u16);
        }
        list
    })
}

/// A third buffer of any bytes: as long as all that could be merged, or less.
fn buffer(random: &mut Random, most: usize) -> Vec<u8> {
    let size = match random.below(4) {
        0 => random.below(most as u64 + 40) as usize,
        _ => most + random.below(3) as usize,
    };
    (0..size).map(|_| random.bits() as u8).collect()
}

/// Whole journals; the buffer is then made just as long as the result, and one byte shorter.
fn small(random: &mut Random, run: &mut Run) {
    let [a, b] = pair(random).map(|list| joined(&list));
    let out = buffer(random, a.len() + b.len());
    let (merged, _) = run.take_merge((&a, a.len()), (&b, b.len()), out.clone());
    if let Merged::Length(length) = merged {
        let exact = out[..length].to_vec();
        run.take_merge((&a, a.len()), (&b, b.len()), exact.clone());
        if length > 0 {
            run.take_merge((&a, a.len()), (&b, b.len()), exact[1..].to_vec());
        }
    }
}

/// Journals whole, altered, cut, or with a length beyond the slice, in any pair.
fn any_inputs(random: &mut Random, run: &mut Run) {
    let [a, b] = pair(random).map(|list| {
        let bytes = match random.below(5) {
            0 if !list.is_empty() => field_altered(random, list),
            1 if !list.is_empty() => byte_altered(random, joined(&list)),
            _ => joined(&list),
        };
        let len = match random.below(4) {
            0 => random.below(bytes.len() as u64 + 3) as usize,
            _ => bytes.len(),
        };
        (bytes, len)
    });
    let out = buffer(random, a.0.len() + b.0.len());
    run.take_merge((&a.0, a.1), (&b.0, b.1), out);
}

/// Journals whose result is about the longest, or beyond it; each with itself.
fn full(random: &mut Random, run: &mut Run) {
    let total = MAX_LENGTH - 40 + random.below(80) as usize;
    let at = random.whole(SMALLEST as u64, (total - SMALLEST) as u64) as usize;
    let sizes = |random: &mut Random| random.whole(SMALLEST as u64, LARGEST as u64 / 4) as usize;
    let [a, b] = [at, total - at].map(|size| one_form(random, size, sizes));
    let out = vec![0xa5; MAX_LENGTH + random.below(3) as usize - 1];
    run.take_merge((&a, a.len()), (&b, b.len()), out.clone());
    run.take_merge((&a, a.len()), (&a, a.len()), out.clone());
    let v = filling(random, MAX_LENGTH, sizes);
    run.take_merge((&v, v.len()), (&v, v.len()), out);
}

/// Records of form 2 that take so many bytes, on a few days.
fn one_form(random: &mut Random, total: usize, draw: impl Fn(&mut Random) -> usize) -> Vec<u8> {
    let (mut bytes, mut day) = (Vec::new(), 0);
    while bytes.len() < total {
        let size = fitting(draw(random), total - bytes.len());
        day += random.below(2) as u16;
        let fields = record_of_size(random, day, size, READ);
        bytes.extend(encoded(Form::Sample, &fields).bytes());
    }
    bytes
}

/// A list of appends on a merged journal, against the book that starts with the merged records (demand 3).
fn on_merged(random: &mut Random, run: &mut Run) {
    let lists = pair(random);
    let [a, b] = lists.each_ref().map(|list| joined(list));
    let out = vec![0x5a; a.len() + b.len() + random.below(1_500) as usize];
    let (merged, v) = run.take_merge((&a, a.len()), (&b, b.len()), out);
    let Merged::Length(length) = merged else {
        return;
    };
    let model = Model::of(&merged_records(&lists), &[]);
    let history = History::from(v, length, model);
    history.any_calls(random, run);
}

/// The merged records, from the lists and not from their bytes.
fn merged_records([first, second]: &[Vec<Record>; 2]) -> Vec<Record> {
    let kept = second.iter().filter(|record| !first.contains(record));
    let mut result: Vec<Record> = first.iter().chain(kept).cloned().collect();
    result.sort_by_key(|record| record.day);
    result
}
