// Groups of random inputs of one kind, each with a tally of its own and a generator of its own.
// All groups of a list share the counts of the answers' kinds, and the least and the greatest limit of the appends.

use super::words::{mark_word, part_words, scan_words, Kinds};
use crate::options::Options;
use crate::tally::{Extremes, Tally, Totals};
use inputs::random::Random;
use reference::profile::Rule;
use reference::scan::{Entry, Status};

/// A group's name, how many inputs it has at scale 1, and one of them.
pub type Group = (&'static str, u64, fn(&mut Random, &mut Run));

pub struct Run<'a> {
    pub tally: Tally,
    pub kinds: &'a mut Kinds,
    pub limits: &'a mut Extremes,
}

pub fn compare_groups(groups: &[Group], options: &Options, totals: &mut Totals) {
    let (mut kinds, mut limits) = (Kinds::default(), Extremes::default());
    for (name, count, each) in groups {
        let mut run = Run {
            tally: Tally::new(*name),
            kinds: &mut kinds,
            limits: &mut limits,
        };
        let mut random = options.random(name);
        (0..options.times(*count)).for_each(|_| each(&mut random, &mut run));
        run.tally.close(totals);
    }
    kinds.print();
    limits.print("append, limits");
}

impl Run<'_> {
    /// Our scan by a rule of the first `len` bytes of a slice against the status that is expected.
    pub fn take_scan(
        &mut self,
        rule: Rule,
        (v, len): (&[u8], usize),
        status: Status,
        input: impl Fn() -> String,
    ) {
        let words = scan_words(status);
        self.kinds.add_scan(rule, words);
        let ours = match rule {
            Rule::Plain => ours::awaqlla_scan(v, len),
            Rule::Profile => ours::awaqlla_profile_scan(v, len),
        };
        let said = || format!("{rule:?} scan, {}", input());
        self.tally.take([ours, words], said);
    }

    /// Our two reading calls by a rule for record i against what is expected to stand.
    pub fn take_reading(
        &mut self,
        rule: Rule,
        (v, len, i): (&[u8], usize, usize),
        (status, entries): (Status, &[Entry]),
        input: impl Fn() -> String,
    ) {
        let (part, mark) = match rule {
            Rule::Plain => (ours::awaqlla_part(v, len, i), ours::awaqlla_mark(v, len, i)),
            Rule::Profile => (
                ours::awaqlla_profile_part(v, len, i),
                ours::awaqlla_profile_mark(v, len, i),
            ),
        };
        let said = |what: &str| format!("{rule:?} {what} {i}, {}", input());
        self.tally
            .take([part, part_words(status, entries, i)], || said("part"));
        let expected = mark_word(status, entries, i);
        self.kinds.add_mark(rule, expected);
        self.tally.take([[mark], [expected]], || said("mark"));
    }
}
