// Appends that are handed an index (document 02, 2026-08), and indexes made afresh: lists of calls that thread one buffer through, with calls
// between that leave it behind; every byte of an index altered; every length of its buffer; indexes that are nearly right; any journal; full ones.

use super::alter::{any_of, byte_altered};
use super::history::{History, Index};
use super::requests::{named_profile_request, named_request, right_offer};
use super::run::{compare_groups, Group, Run};
use crate::options::Options;
use crate::tally::Totals;
use inputs::journal::{NAMES, SMALLEST};
use inputs::random::Random;
use reference::index::{bytes_of, entries_of, Named};
use reference::model::{Offer, Request};
use reference::record::Record;
use reference::samples::{profile_records, records, smallest, two_byte_name};
use reference::scan::MAX_LENGTH;

const GROUPS: [Group; 7] = [
    ("index, histories", 30_000, history),
    ("index, histories by the profile", 10_000, profile_history),
    ("index, every byte altered", 300, every_byte),
    ("index, every length of its buffer", 300, every_length),
    ("index, nearly right", 1_000, nearly_right),
    ("index, made of any journal", 100_000, any_journal),
    ("index, full journals", 12, full),
];

pub fn compare(options: &Options, totals: &mut Totals) {
    compare_groups(&GROUPS, options, totals);
}

/// So many random bytes.
pub fn bytes(random: &mut Random, size: usize) -> Vec<u8> {
    (0..size).map(|_| random.bits() as u8).collect()
}

/// Records with few names in place of their own.
fn of_few_names(random: &mut Random, mut records: Vec<Record>) -> Vec<Record> {
    for record in &mut records {
        record.name = random.pick(&NAMES).to_vec();
    }
    records
}

/// So many records of few names.
pub fn some_records(random: &mut Random, count: u64) -> Vec<Record> {
    let some = records(random, count);
    of_few_names(random, some)
}

/// A journal of some records, with room for more.
fn some_history(random: &mut Random) -> History {
    let count = random.below(6);
    let standing = some_records(random, count + 1);
    History::on(random, standing, 600)
}

fn history(random: &mut Random, run: &mut Run) {
    let history = some_history(random);
    calls(random, run, history, named_request);
}

/// The same of records of the profile, of which one may break it.
fn profile_history(random: &mut Random, run: &mut Run) {
    let count = random.whole(1, 4) as usize;
    let some = profile_records(random, count);
    let standing = of_few_names(random, some);
    let history = History::on(random, standing, 1_500);
    calls(random, run, history, named_profile_request);
}

/// Calls with an index or without. The buffer goes from one to the next; now and then it is altered, or made afresh, or its end is moved near
/// the index's.
fn calls(
    random: &mut Random,
    run: &mut Run,
    mut history: History,
    draw: fn(&mut Random, u16) -> Request,
) {
    let mut index = Index::of(bytes(random, 300));
    history.make_index(run, &mut index);
    for _ in 0..random.whole(1, 12) {
        let request = draw(random, history.last_day());
        match random.below(12) {
            0 => history.call(random, run, &request),
            1 => index = Index::of(byte_altered(random, index.ours)),
            2 | 3 => history.make_index(run, &mut index),
            4 => {
                let size = history.index_len() + random.below(48) as usize;
                index.ours.resize(size, 0xa5);
                index.expected.resize(size, 0xa5);
            }
            _ => history.call_with(random, run, &request, Some(&mut index)),
        }
    }
}

/// A call of a right offer of one of the names that is cut, so that journal and index stay.
fn cut(random: &mut Random, history: &History) -> Request {
    let offer = Offer {
        name: random.pick(&NAMES).to_vec(),
        ..right_offer(random, history.last_day())
    };
    Request {
        offer,
        budget: Some(random.below(20) as usize),
        ..Request::default()
    }
}

/// Each byte of the journal's index altered, and some of those behind it.
fn every_byte(random: &mut Random, run: &mut Run) {
    let mut history = some_history(random);
    let mut index = Index::of(bytes(random, 400));
    history.make_index(run, &mut index);
    let right = index.ours;
    for at in 0..history.index_len() + 5 {
        let mut altered = right.clone();
        altered[at] ^= 1 << random.below(8);
        let request = cut(random, &history);
        let mut index = Index::of(altered);
        history.call_with(random, run, &request, Some(&mut index));
    }
}

/// Each length of the buffer, from none to room for one entry more than any call needs: the call, and the index made afresh.
fn every_length(random: &mut Random, run: &mut Run) {
    let mut history = some_history(random);
    let mut index = Index::of(bytes(random, 600));
    history.make_index(run, &mut index);
    let right = index.ours;
    for size in 0..history.index_len() + 42 {
        let request = cut(random, &history);
        let mut index = Index::of(right[..size].to_vec());
        history.call_with(random, run, &request, Some(&mut index));
        history.make_index(run, &mut index);
    }
}

/// Indexes that are nearly the journal's.
fn nearly_right(random: &mut Random, run: &mut Run) {
    let mut history = some_history(random);
    for wrong in nearly(&history.names()) {
        let behind = random.below(60) as usize;
        let behind = bytes(random, behind);
        let mut index = Index::of([wrong, behind].concat());
        let request = cut(random, &history);
        history.call_with(random, run, &request, Some(&mut index));
    }
}

/// A count off by one, entries exchanged, missing or twice, another record's start, names by their length first.
pub fn nearly(placed: &[Named]) -> Vec<Vec<u8>> {
    let entries = entries_of(placed.iter().copied());
    let count = entries.len();
    let mut wrong = vec![bytes_of(count + 1, &entries)];
    if count > 0 {
        wrong.push(bytes_of(count - 1, &entries));
    }
    let mut take = |changed: Vec<Named>| wrong.push(bytes_of(changed.len(), &changed));
    for i in 0..count {
        let (before, behind) = entries.split_at(i);
        take([before, &behind[1..]].concat());
        take([before, &behind[..1], behind].concat());
        if i > 0 {
            let mut exchanged = entries.clone();
            exchanged.swap(i - 1, i);
            take(exchanged);
        }
        for (_, start) in placed {
            let mut other = entries.clone();
            other[i].1 = *start;
            take(other);
        }
    }
    let mut by_length = entries;
    by_length.sort_by_key(|(name, _)| name.len());
    take(by_length);
    wrong
}

/// A buffer of any length for any journal.
fn any_journal(random: &mut Random, run: &mut Run) {
    let count = random.whole(1, 5);
    let some = some_records(random, count);
    let (v, len, _) = any_of(random, some);
    let beyond = len + usize::from(random.below(20) == 0);
    let size = random.below(150) as usize;
    let mut index = Index::of(bytes(random, size));
    run.take_index(&v, beyond, &mut index);
}

/// Full journals of small records, each of another name or of few: an index of up to some 1,900 entries, amended somewhere and made afresh.
fn full(random: &mut Random, run: &mut Run) {
    let names = *random.pick(&[1, 41, 8_836]);
    let size = SMALLEST + 1;
    let standing = (0..MAX_LENGTH / size - 1)
        .map(|i| smallest(&two_byte_name(i % names)))
        .collect();
    let mut history = History::on(random, standing, 4 * size);
    let mut index = Index::of(bytes(random, 16_000));
    history.make_index(run, &mut index);
    for _ in 0..3 {
        let request = named_request(random, history.last_day());
        history.call_with(random, run, &request, Some(&mut index));
    }
    history.make_index(run, &mut index);
}
