// The limits tried on logs (document 02, 2026-12), by both calls: ticks at the limits and beside them, names that begin others, overs that just
// exceed a chance and that do not, every refusal with every later one, nearly right lines, and a million lines.

use super::alter::any_of;
use super::history::answer_words;
use super::indexes::{bytes, nearly, some_records};
use super::run::{compare_groups, Group, Run};
use crate::options::Options;
use crate::tally::Totals;
use inputs::journal::NAMES;
use inputs::log::{line, nearly as nearly_line, other_line, spoiled, NEARLY};
use inputs::random::Random;
use reference::index::{entries_of, index_of, Named};
use reference::limit::Form;
use reference::model::{names_in, standing, Answer};
use reference::profile::Rule;
use reference::record::Record;
use reference::samples::joined;
use reference::trial::{Handed, Trial};

const GROUPS: [Group; 6] = [
    ("trial, any log", 20_000, any_log),
    ("trial, overs around a chance", 40, around_chances),
    ("trial, any journal and index", 60_000, any_journal),
    ("trial, every refusal", 300, every_refusal),
    ("trial, nearly right lines", 300, nearly_right),
    ("trial, a million lines", 1, a_million),
];

pub fn compare(options: &Options, totals: &mut Totals) {
    compare_groups(&GROUPS, options, totals);
}

/// A trial's words: links, how many chances, the lowest exceeded one, and the overs.
fn trial_words(trial: Result<Trial, Answer>) -> [u64; 12] {
    let mut words = [0; 12];
    match trial {
        Ok(trial) => {
            words[1] = trial.links;
            words[2] = trial.overs.len() as u64;
            words[3] = trial.lowest.unwrap_or(0).into();
            words[4..][..trial.overs.len()].copy_from_slice(&trial.overs);
        }
        Err(answer) => words[..3].copy_from_slice(&answer_words(answer)),
    }
    words
}

fn unknown_words(unknown: Result<u64, Answer>) -> [u64; 3] {
    unknown.map_or_else(answer_words, |lines| [0, lines, 0])
}

impl Run<'_> {
    /// Both calls, the first for all positions of the index, the two behind it and a huge one; and that they count every line.
    fn take_trials(
        &mut self,
        random: &mut Random,
        log: &[u8],
        (slice, len): (&[u8], usize),
        index: &[u8],
    ) {
        let handed = Handed {
            log,
            slice,
            len,
            index,
        };
        let unknown = self.take_unknown(handed);
        let tried = handed.unknown().is_ok();
        let count = index.first_chunk().filter(|_| tried);
        let entries = usize::from(count.map_or(0, |count| u16::from_le_bytes(*count)));
        let mut links = 0;
        for position in (0..entries + 2).chain([random.bits() as usize]) {
            links += self.take_trial(handed, position);
        }
        if tried {
            let lines = log.iter().filter(|byte| **byte == b'\n').count() as u64;
            self.tally.take([[links + unknown], [lines]], || {
                format!("lines, {handed:02x?}")
            });
        }
    }

    /// The call for unknown names; what ours counts.
    fn take_unknown(&mut self, handed: Handed) -> u64 {
        let expected = unknown_words(handed.unknown());
        self.kinds.add(match expected {
            [0, ..] => "trial, tried".into(),
            [1, number, _] => format!("trial, declined {number:>2}"),
            [2, number, _] => format!("trial, damaged {number:>2}"),
            [_, number, _] => format!("trial, declined {number:>2} at a line"),
        });
        let ours = ours::awaqlla_trial_unknown(handed.log, handed.slice, handed.len, handed.index);
        let input = || format!("unknown lines, {handed:02x?}");
        self.tally.take([ours, expected], input);
        ours[1]
    }

    /// The call for a position; the links that ours counts, none where it refuses.
    fn take_trial(&mut self, handed: Handed, position: usize) -> u64 {
        let expected = trial_words(handed.trial(position));
        if expected[0] == 0 {
            let exceeded = if expected[3] == 0 { "no" } else { "a" };
            self.kinds.add(format!("trial, {exceeded} chance exceeded"));
        }
        let ours = ours::awaqlla_trial(handed.log, handed.slice, handed.len, handed.index, position);
        let input = || format!("trial at {position}, {handed:02x?}");
        self.tally.take([ours, expected], input);
        if ours[0] == 0 {
            ours[1]
        } else {
            0
        }
    }
}

/// The names and starts of a journal that stands; none of one that is damaged.
fn placed(v: &[u8], len: usize) -> Vec<Named<'_>> {
    standing(Rule::Plain, v, len).map_or(vec![], |(_, records)| names_in(v, &records))
}

/// A line of a name that stands with ticks at one of its last record's limits or beside it, or of a name that none has.
fn any_line(random: &mut Random, v: &[u8], entries: &[Named]) -> Vec<u8> {
    if entries.is_empty() || random.below(6) == 0 {
        let name = *random.pick(&NAMES);
        return other_line(random, name);
    }
    let (name, start) = *random.pick(entries);
    let limits = Record::standing(&v[start..]).limits;
    let limit = f64::from_bits(*random.pick(&limits));
    let beside = limit.clamp(1.0, 1e6) as i64 + random.below(5) as i64 - 2;
    line(name, beside.clamp(1, 1_048_575) as u64)
}

fn any_lines(random: &mut Random, v: &[u8], placed: &[Named], most: u64) -> Vec<Vec<u8>> {
    let entries = entries_of(placed.iter().copied());
    let count = random.below(most + 1);
    (0..count).map(|_| any_line(random, v, &entries)).collect()
}

/// A journal's index, with bytes behind it.
fn with_index(random: &mut Random, placed: &[Named]) -> Vec<u8> {
    let behind = random.below(20) as usize;
    [index_of(placed.iter().copied()), bytes(random, behind)].concat()
}

fn any_log(random: &mut Random, run: &mut Run) {
    let count = random.below(6);
    let mut v = joined(&some_records(random, count));
    let len = v.len();
    let room = random.below(40) as usize;
    v.extend(bytes(random, room));
    let placed = placed(&v, len);
    let log = any_lines(random, &v, &placed, 40).concat();
    let index = with_index(random, &placed);
    run.take_trials(random, &log, (&v, len), &index);
}

/// Of up to 24 links so many over that the share of a chance is met, exceeded or not.
fn around_chances(random: &mut Random, run: &mut Run) {
    let chances = [1, 41_667, 125_000, 250_000, 333_333, 333_334, 500_000];
    let limit = random.whole(2, 1_048_574);
    let times = [limit as u32; 2];
    let v = Record::new(Form::Sample, 1, b"A", &chances, &times).bytes();
    let index = index_of([(&b"A"[..], 0)].into_iter());
    for links in 0..=24 {
        for over in 0..=links {
            let ticks = |i: u64| if i < over { limit + 1 } else { limit - i % 2 };
            let log: Vec<u8> = (0..links).flat_map(|i| line(b"A", ticks(i))).collect();
            run.take_trials(random, &log, (&v, v.len()), &index);
        }
    }
}

/// Journals whole, cut and altered, with indexes right, nearly right, short and altered, and logs with a line spoiled.
fn any_journal(random: &mut Random, run: &mut Run) {
    let count = random.whole(1, 5);
    let some = some_records(random, count);
    let (v, len, _) = any_of(random, some);
    let len = len + usize::from(random.below(20) == 0);
    let placed = placed(&v, len);
    let mut lines = any_lines(random, &v, &placed, 8);
    if !lines.is_empty() && random.below(6) == 0 {
        let at = random.below(lines.len() as u64) as usize;
        lines[at] = spoiled(random, &lines[at], b"A");
    }
    let mut index = with_index(random, &placed);
    match random.below(6) {
        0 => index = random.pick(&nearly(&placed)).clone(),
        1 => index.truncate(random.below(index.len() as u64 + 1) as usize),
        _ => (),
    }
    let log = lines.concat();
    run.take_trials(random, &log, (&v, len), &index);
}

/// A good log and one with a line that is refused, a journal that stands and one with a fault, the journal's index and another: all of them.
fn every_refusal(random: &mut Random, run: &mut Run) {
    let count = random.whole(1, 4);
    let v = joined(&some_records(random, count));
    let placed = placed(&v, v.len());
    let good = any_lines(random, &v, &placed, 8);
    let bad = nearly_line(random.below(NEARLY.len() as u64) as usize, b"A");
    let mut damaged = v.clone();
    damaged[0] = 3;
    let right = with_index(random, &placed);
    let stale = index_of(placed[1..].iter().copied());
    for log in [good.concat(), [good.concat(), bad].concat()] {
        for slice in [&v, &damaged] {
            for index in [&right, &stale] {
                run.take_trials(random, &log, (slice, v.len()), index);
            }
        }
    }
}

/// Each nearly right line at the first place of a good log, at a middle one and at the last; and each alone.
fn nearly_right(random: &mut Random, run: &mut Run) {
    let count = random.whole(1, 4);
    let v = joined(&some_records(random, count));
    let placed = placed(&v, v.len());
    let index = with_index(random, &placed);
    let good = any_lines(random, &v, &placed, 8);
    for number in 0..NEARLY.len() {
        let name = placed[0].0;
        let wrong = nearly_line(number, name);
        let middle = random.below(good.len() as u64 + 1) as usize;
        for place in [0, middle, good.len()] {
            let mut lines = good.clone();
            lines.insert(place, wrong.clone());
            run.take_trials(random, &lines.concat(), (&v, v.len()), &index);
        }
    }
}

/// One over in a million links, which does not exceed the chance 1, and in one link less, which does.
fn a_million(random: &mut Random, run: &mut Run) {
    let v = Record::new(Form::Sample, 1, b"A", &[1, 2], &[5, 5]).bytes();
    let index = index_of([(&b"A"[..], 0)].into_iter());
    let log = [line(b"A", 6), line(b"A", 5).repeat(999_999)].concat();
    for end in [log.len(), log.len() - 4] {
        run.take_trials(random, &log[..end], (&v, v.len()), &index);
    }
}
