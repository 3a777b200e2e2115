// Lists of appends, of times and through logs, plain and by the profile, from length 0 or from records that stand, against the model of
// document 01's book.
// Then single appends on any bytes, damaged journals among them.

use super::alter::{any_of_profile, byte_altered, field_altered};
use super::history::{answer_words, call_ours, History};
use super::requests::{any_request, length_of, offer_of_size, profile_request, right_offer};
use super::run::{compare_groups, Group, Run};
use crate::options::Options;
use crate::tally::Totals;
use inputs::journal::LARGEST;
use inputs::random::Random;
use reference::model::{append, Offer, Request};
use reference::samples::{filling, joined, old_records, profile_records, records};
use reference::scan::{scan, Status, MAX_LENGTH};

const GROUPS: [Group; 9] = [
    ("append, histories in small slices", 60_000, small_history),
    ("append, histories on form 1", 30_000, old_history),
    ("append, histories by the profile", 15_000, profile_history),
    ("append, histories in full slices", 4, full_history),
    ("append, cut at every budget", 200, every_budget),
    (
        "append, cut at every budget on form 1",
        200,
        every_budget_on_old,
    ),
    ("append, any journal", 150_000, any_journal),
    ("append, any profile journal", 40_000, any_profile),
    ("append, almost full journals", 300, almost_full),
];

pub fn compare(options: &Options, totals: &mut Totals) {
    compare_groups(&GROUPS, options, totals);
}

fn small_history(random: &mut Random, run: &mut Run) {
    let size = match random.below(4) {
        0 => random.below(100),
        1 => random.below(800),
        _ => random.below(3_000),
    };
    History::new(random, size as usize).any_calls(random, run);
}

fn old_history(random: &mut Random, run: &mut Run) {
    let room = random.below(1_500) as usize;
    on_old(random, room).any_calls(random, run);
}

/// Records of form 1 with a torn one behind them, and so much room.
fn on_old(random: &mut Random, room: usize) -> History {
    let count = random.whole(2, 5);
    let standing = old_records(random, count);
    History::on(random, standing, room)
}

/// From length 0, or from records of the profile of which one may break it.
fn profile_history(random: &mut Random, run: &mut Run) {
    let count = random.below(5) as usize;
    let room = random.below(3_000) as usize;
    let mut history = match count {
        0 => History::new(random, room),
        _ => {
            let standing = profile_records(random, count);
            History::on(random, standing, room)
        }
    };
    for _ in 0..random.whole(1, 10) {
        let request = match random.below(8) {
            0 => any_request(random, history.last_day(), history.room()),
            _ => profile_request(random, history.last_day()),
        };
        history.call(random, run, &request);
    }
}

/// Records until no more has room, in a slice around the longest journal: large ones that finish, and any calls between them.
fn full_history(random: &mut Random, run: &mut Run) {
    let size = *random.pick(&[MAX_LENGTH - 1, MAX_LENGTH, MAX_LENGTH + 1, MAX_LENGTH + 700]);
    let mut history = History::new(random, size);
    for _ in 0..300 {
        if history.room() > 2 * LARGEST {
            let offer = offer_of_size(random, history.last_day(), LARGEST);
            history.call(random, run, &plain(offer, None));
        }
        let request = any_request(random, history.last_day(), history.room());
        history.call(random, run, &request);
    }
}

/// A record after another, cut at every budget: each call writes over the tail of the one before.
fn every_budget(random: &mut Random, run: &mut Run) {
    let mut history = History::new(random, 2_000);
    let first = right_offer(random, 0);
    history.call(random, run, &plain(first, None));
    each_budget(random, run, history);
}

/// The same after records of form 1, the first over a tail of that form.
fn every_budget_on_old(random: &mut Random, run: &mut Run) {
    let history = on_old(random, 2_000);
    each_budget(random, run, history);
}

fn each_budget(random: &mut Random, run: &mut Run, mut history: History) {
    let offer = right_offer(random, history.last_day());
    let length = length_of(&offer);
    for budget in (0..length).chain([length + 1, length]) {
        history.call(random, run, &plain(offer.clone(), Some(budget)));
    }
}

/// An append on bytes that no list of calls need have made.
fn any_journal(random: &mut Random, run: &mut Run) {
    let count = random.whole(1, 4);
    let some = records(random, count);
    let day = some.last().map_or(0, |record| record.day);
    let mut v = match random.below(3) {
        0 => joined(&some),
        1 => field_altered(random, some),
        _ => byte_altered(random, joined(&some)),
    };
    let len = match random.below(3) {
        0 => v.len(),
        1 => random.below(v.len() as u64 + 1) as usize,
        _ => v.len() + random.below(3) as usize,
    };
    for _ in 0..random.below(4) * 100 {
        v.push(random.bits() as u8);
    }
    let room = v.len().min(MAX_LENGTH).saturating_sub(len);
    let request = any_request(random, day, room);
    single(run, v, len, request);
}

/// The same on records of the profile.
fn any_profile(random: &mut Random, run: &mut Run) {
    let (mut v, len, day) = any_of_profile(random);
    v.extend((0..random.below(4) * 300).map(|_| random.bits() as u8));
    let request = profile_request(random, day);
    single(run, v, len, request);
}

/// Journals that leave room for about one record below the longest.
fn almost_full(random: &mut Random, run: &mut Run) {
    let room = random.whole(0, LARGEST as u64 + 1) as usize;
    let mut v = filling(random, MAX_LENGTH - room, |_| LARGEST);
    let len = v.len();
    v.resize(MAX_LENGTH + random.below(3) as usize - 1, 0xa5);
    let request = any_request(random, 7, v.len().min(MAX_LENGTH).saturating_sub(len));
    single(run, v, len.min(MAX_LENGTH), request);
}

fn single(run: &mut Run, v: Vec<u8>, len: usize, request: Request) {
    let (mut ours, mut expected) = (v.clone(), v);
    let words = call_ours(&mut ours, len, &request, None);
    let answer = answer_words(append(&mut expected, len, &request, None));
    let after = scan(&expected, answer[1] as usize);
    let tail = answer[0] == 0 && matches!(after, Status::Torn { .. });
    let input = || format!("{request:?} at length {len} in {ours:02x?}");
    run.take_call(
        request.rule,
        [words, answer],
        [&ours, &expected],
        tail,
        input,
    );
}

/// The call of an offer's own times.
fn plain(offer: Offer, budget: Option<usize>) -> Request {
    Request {
        offer,
        budget,
        ..Request::default()
    }
}
