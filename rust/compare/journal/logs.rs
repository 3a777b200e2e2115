// Appends through logs (document 02, 2026-01) in which one thing is tried at every place: nearly right lines, how many lines the name has,
// the log's end, and every short text behind a good line.

use super::history::{answer_words, call_ours, History};
use super::requests::right_offer;
use super::run::{compare_groups, Group, Run};
use crate::options::Options;
use crate::tally::Totals;
use inputs::log::{line, lines_of, nearly, other_line, NEARLY};
use inputs::random::Random;
use reference::model::{append, Offer, Request};
use reference::samples::records;

const GROUPS: [Group; 4] = [
    ("log, nearly right lines", 300, nearly_right),
    ("log, lines of the name", 300, numbers_of_lines),
    ("log, cut at every byte", 500, every_cut),
    ("log, every short text", 1, every_text),
];

/// Bytes of the short texts: the name, another, the space, the newline, digits, and one that is none of these.
const LETTERS: [u8; 8] = *b"ab \n019\x7f";
const LONGEST_TEXT: u32 = 6;

pub fn compare(options: &Options, totals: &mut Totals) {
    compare_groups(&GROUPS, options, totals);
}

/// A journal of some records with a torn tail or none, and room for more.
fn some_history(random: &mut Random) -> History {
    let count = random.below(4);
    match count {
        0 => History::new(random, 2_000),
        _ => {
            let standing = records(random, count);
            History::on(random, standing, 2_000)
        }
    }
}

/// The call of an offer with these lines for its log; every second one with a budget.
fn through(random: &mut Random, offer: &Offer, lines: &[Vec<u8>]) -> Request {
    Request {
        offer: offer.clone(),
        log: Some(lines.concat()),
        budget: (random.below(2) == 0).then(|| random.below(100) as usize),
        ..Request::default()
    }
}

/// Each nearly right line at the first place of a good log, at a middle one and at the last; and each alone.
fn nearly_right(random: &mut Random, run: &mut Run) {
    let mut history = some_history(random);
    let offer = right_offer(random, history.last_day());
    let good = lines_of(random, &offer.name, &offer.times);
    for number in 0..NEARLY.len() {
        let middle = random.whole(1, good.len() as u64 - 1) as usize;
        for place in [0, middle, good.len()] {
            let mut lines = good.clone();
            lines.insert(place, nearly(number, &offer.name));
            let request = through(random, &offer, &lines);
            history.call(random, run, &request);
        }
        let request = through(random, &offer, &[nearly(number, &offer.name)]);
        history.call(random, run, &request);
    }
}

/// From no line of the name to 130 of them; with no line that is refused, with one before the last of them, in its place, and after it.
fn numbers_of_lines(random: &mut Random, run: &mut Run) {
    let mut history = some_history(random);
    let mut offer = right_offer(random, history.last_day());
    for count in [0, 1, 2, 3, 127, 128, 129, 130] {
        offer
            .times
            .resize_with(count, || random.whole(1, 1_048_575) as u32);
        let good = lines_of(random, &offer.name, &offer.times);
        let own = [offer.name.as_slice(), b" "].concat();
        let own_last = good.iter().rposition(|text| text.starts_with(&own));
        let last = own_last.unwrap_or(good.len());
        let after = good.len().min(last + 1);
        let bad = nearly(random.below(NEARLY.len() as u64) as usize, &offer.name);
        let mut logs = vec![good.clone(); 4];
        for (lines, at) in logs.iter_mut().zip([last..last, last..after, after..after]) {
            lines.splice(at, [bad.clone()]);
        }
        for lines in logs {
            let request = through(random, &offer, &lines);
            history.call(random, run, &request);
        }
    }
}

/// A log that ends before each of its bytes: between two lines it is good, and elsewhere its last line has no newline.
fn every_cut(random: &mut Random, run: &mut Run) {
    let mut history = some_history(random);
    let mut offer = right_offer(random, history.last_day());
    offer.times.truncate(6);
    let mut log = lines_of(random, &offer.name, &offer.times);
    log.push(other_line(random, &offer.name));
    let log = log.concat();
    for end in 0..=log.len() {
        let request = through(random, &offer, &[log[..end].to_vec()]);
        history.call(random, run, &request);
    }
}

/// Every text of up to six of the letters behind one good line of the name.
fn every_text(_: &mut Random, run: &mut Run) {
    let count = LETTERS.len() as u64;
    let mut v = [0; 40];
    for size in 0..=LONGEST_TEXT {
        for number in 0..count.pow(size) {
            let letter = |at| LETTERS[(number / count.pow(at) % count) as usize];
            let text: Vec<u8> = (0..size).map(letter).collect();
            let request = Request {
                offer: Offer {
                    day: 0,
                    name: b"a".to_vec(),
                    chances: vec![1_000],
                    times: Vec::new(),
                },
                log: Some([line(b"a", 9), text].concat()),
                ..Request::default()
            };
            let mut expected = v;
            let words = call_ours(&mut v, 0, &request, None);
            let answer = answer_words(append(&mut expected, 0, &request, None));
            let input = || format!("{request:?}");
            run.take_call(request.rule, [words, answer], [&v, &expected], false, input);
            v = expected;
        }
    }
}
