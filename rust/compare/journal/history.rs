// A list of calls on one journal, with the model beside it: after each call the answer, every byte of the slice and of the index's buffer, scan
// and both reading calls. A call is made by the C function that it needs: with a budget or without, with times or through a log; plain and
// without an index, or with options.

use super::requests::any_request;
use super::run::Run;
use super::words::by;
use inputs::random::Random;
use ours::{INDEX, PROFILE};
use reference::index::Named;
use reference::limit::{Form, Sums};
use reference::model::{make_index, Answer, Model, Request};
use reference::profile::Rule;
use reference::record::Record;
use reference::samples::{joined, records};
use reference::scan::MAX_LENGTH;

pub fn answer_words(answer: Answer) -> [u64; 3] {
    match answer {
        Answer::Length(length) => [0, length as u64, 0],
        Answer::Declined(number) => [1, number, 0],
        Answer::Damaged { number, place } => [2, number, place as u64],
        Answer::DeclinedAt(refused) => [3, refused.number, refused.place as u64],
    }
}

/// Our call of a request, with an index's buffer or without.
pub fn call_ours(
    v: &mut [u8],
    len: usize,
    request: &Request,
    index: Option<&mut [u8]>,
) -> [u64; 3] {
    let offer = ours::Offer {
        day: request.offer.day,
        name: &request.offer.name,
        chances: &request.offer.chances,
        times: &request.offer.times,
    };
    // A plain call without an index and with an odd budget goes through the functions with options too.
    let (k, plain) = (
        request.budget.unwrap_or(usize::MAX),
        request.rule == Rule::Plain,
    );
    if plain && index.is_none() && (request.budget.is_none() || k % 2 == 0) {
        return match (&request.log, request.budget) {
            (None, None) => ours::awaqlla_append(v, len, offer),
            (None, Some(k)) => ours::awaqlla_append_upto(v, len, offer, k),
            (Some(log), None) => ours::awaqlla_append_log(v, len, offer, log),
            (Some(log), Some(k)) => ours::awaqlla_append_log_upto(v, len, offer, log, k),
        };
    }
    let handed = if index.is_some() { INDEX } else { 0 };
    let options = if plain { handed } else { handed | PROFILE };
    let index = index.unwrap_or_default();
    match &request.log {
        None => ours::awaqlla_append_with(v, len, offer, k, index, options),
        Some(log) => ours::awaqlla_append_log_with(v, len, offer, log, k, index, options),
    }
}

/// An index's buffer, as ours leaves it and as the reference does.
#[derive(Default)]
pub struct Index {
    pub ours: Vec<u8>,
    pub expected: Vec<u8>,
}

impl Index {
    /// A buffer of these bytes on both sides.
    pub fn of(bytes: Vec<u8>) -> Index {
        Index {
            ours: bytes.clone(),
            expected: bytes,
        }
    }
}

impl Run<'_> {
    /// One call's answer and every byte after it; `tail` says whether it leaves a torn tail.
    pub fn take_call(
        &mut self,
        rule: Rule,
        words: [[u64; 3]; 2],
        v: [&[u8]; 2],
        tail: bool,
        input: impl Fn() -> String,
    ) {
        let by = by(rule);
        self.kinds.add(match words[1] {
            [0, ..] if tail => format!("{by}append, cut"),
            [0, ..] => format!("{by}append, finished"),
            [1, number, _] => format!("{by}append, declined {number:>2}"),
            [2, number, _] => format!("{by}append, damaged {number:>2}"),
            [_, number, _] => format!("{by}append, declined {number:>2} at a line"),
        });
        self.tally.take(words, &input);
        self.take_bytes(v, input);
    }

    /// Every byte of a buffer after a call: the place of the first that differs, counted from 1.
    pub fn take_bytes(&mut self, v: [&[u8]; 2], input: impl Fn() -> String) {
        let differs = v[0]
            .iter()
            .zip(v[1])
            .position(|(a, b)| a != b)
            .map_or(0, |place| place as u64 + 1);
        self.tally
            .take([[differs], [0]], || format!("bytes after {}", input()));
    }

    /// The limits of a request that is not declined.
    fn take_limits(&mut self, request: &Request) {
        let offer = request.offered().expect("a log of good lines");
        let sums = Sums::of(&offer.times);
        for chance in &offer.chances {
            let limit = sums.limit_at(Form::Sample, *chance);
            self.limits
                .take(limit, &mut self.tally, || format!("{offer:?} at {chance}"));
        }
    }

    /// Our index made afresh of the first `len` bytes of a slice, and every byte of its buffer.
    pub fn take_index(&mut self, v: &[u8], len: usize, index: &mut Index) {
        let before = index.ours.len();
        let words = ours::awaqlla_index(v, len, &mut index.ours);
        let answer = answer_words(make_index(v, len, &mut index.expected));
        self.kinds.add(match answer {
            [0, ..] => "index, made".into(),
            [1, number, _] => format!("index, declined {number:>2}"),
            [_, number, _] => format!("index, damaged {number:>2}"),
        });
        let input = || format!("index in {before} bytes at length {len} of {v:02x?}");
        self.tally.take([words, answer], input);
        self.take_bytes([&index.ours, &index.expected], input);
    }

    /// What scan and reading, plain and by the profile, say of the journal after a call, against the model.
    fn take_shown(&mut self, random: &mut Random, v: &[u8], len: usize, model: &Model) {
        let count = model.entries.len();
        let input = || format!("{model:?}");
        for rule in [Rule::Plain, Rule::Profile] {
            let status = model.status(rule);
            self.take_scan(rule, (v, len), status, input);
            let near = random.below(count as u64 + 1) as usize;
            let huge = random.bits() as usize;
            let every: Vec<usize> = match (rule, count) {
                (Rule::Profile, _) => vec![near],
                (_, 0..8) => (0..count + 2).chain([huge]).collect(),
                _ => vec![0, near, count - 1, count, huge],
            };
            for i in every {
                self.take_reading(rule, (v, len, i), (status, &model.entries), input);
            }
        }
    }
}

/// A list of calls: the journal as ours leaves it, the model, and the bytes that the model makes of the slice.
pub struct History {
    v: Vec<u8>,
    len: usize,
    model: Model,
    expected: Vec<u8>,
}

impl History {
    /// Any bytes, and length 0.
    pub fn new(random: &mut Random, size: usize) -> History {
        let v: Vec<u8> = match random.below(3) {
            0 => vec![0; size],
            1 => joined(&records(random, 3))
                .into_iter()
                .cycle()
                .take(size)
                .collect(),
            _ => (0..size).map(|_| random.bits() as u8).collect(),
        };
        History::from(v, 0, Model::default())
    }

    /// Records with some bytes of the last one, none or almost all, and so many bytes behind them.
    pub fn on(random: &mut Random, mut standing: Vec<Record>, room: usize) -> History {
        let torn = standing.pop().map_or(vec![], |record| record.bytes());
        let k = random.below(torn.len() as u64) as usize;
        let model = Model::of(&standing, &torn[..k]);
        let mut v = model.bytes();
        v.extend((0..room).map(|_| random.bits() as u8));
        History::from(v, model.len(), model)
    }

    /// A journal that stands, and its model.
    pub fn from(v: Vec<u8>, len: usize, model: Model) -> History {
        History {
            expected: v.clone(),
            v,
            len,
            model,
        }
    }

    /// Up to a dozen calls.
    pub fn any_calls(mut self, random: &mut Random, run: &mut Run) {
        for _ in 0..random.whole(1, 12) {
            let request = any_request(random, self.last_day(), self.room());
            self.call(random, run, &request);
        }
    }

    /// A call without an index.
    pub fn call(&mut self, random: &mut Random, run: &mut Run, request: &Request) {
        self.call_with(random, run, request, None);
    }

    /// A call, with an index's buffer or without.
    pub fn call_with(
        &mut self,
        random: &mut Random,
        run: &mut Run,
        request: &Request,
        mut index: Option<&mut Index>,
    ) {
        let before = self.len;
        let buffer = index.as_mut().map(|index| &mut index.ours[..]);
        let ours = call_ours(&mut self.v, self.len, request, buffer);
        let buffer = index.as_mut().map(|index| &mut index.expected[..]);
        let answer = self.model.call(self.v.len(), request, buffer);
        if let Answer::Length(length) = answer {
            self.len = length;
            run.take_limits(request);
        }
        let made = self.model.bytes();
        self.expected[..made.len()].copy_from_slice(&made);
        let tail = !self.model.tail.is_empty();
        let input = || format!("{request:?} at length {before}");
        run.take_call(
            request.rule,
            [ours, answer_words(answer)],
            [&self.v, &self.expected],
            tail,
            input,
        );
        if let Some(index) = index {
            run.take_bytes([&index.ours, &index.expected], || {
                format!("{} with an index", input())
            });
        }
        run.take_shown(random, &self.v, self.len, &self.model);
    }

    /// The index made afresh.
    pub fn make_index(&self, run: &mut Run, index: &mut Index) {
        run.take_index(&self.v, self.len, index);
    }

    /// How long the index is now.
    pub fn index_len(&self) -> usize {
        self.model.index().len()
    }

    /// Each record's name and start.
    pub fn names(&self) -> Vec<Named<'_>> {
        self.model.names().collect()
    }

    /// The room behind the records.
    pub fn room(&self) -> usize {
        self.v.len().min(MAX_LENGTH) - self.model.committed()
    }

    pub fn last_day(&self) -> u16 {
        self.model.entries.last().map_or(0, |entry| entry.day)
    }
}
