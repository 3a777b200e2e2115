// What a call of append is handed, drawn at random: offers that are right, that just fit, or that break rules; logs that have their times;
// budgets; and the rule that it goes by.

use inputs::journal::{profile_broken, profile_record};
use inputs::journal::{record, record_of_size, Fields, LARGEST, OFFERED, SMALLEST};
use inputs::journal::{CHANCES, NAMES, NAME_BYTES, TIMES};
use inputs::log::{lines_of, spoiled};
use inputs::random::Random;
use reference::model::{Offer, Request};
use reference::profile::Rule;

/// A request: of times, or through a log; with a budget or without; mostly plain.
pub fn any_request(random: &mut Random, last_day: u16, room: usize) -> Request {
    let offer = any_offer(random, last_day, room);
    let rule = match random.below(8) {
        0 => Rule::Profile,
        _ => Rule::Plain,
    };
    of_offer(random, offer, rule)
}

/// A request whose offer is of the profile or breaks it, or another rule; mostly by the profile.
pub fn profile_request(random: &mut Random, last_day: u16) -> Request {
    let day = last_day.saturating_add(random.below(2) as u16);
    let mut fields = profile_record(random, day);
    if random.below(5) == 0 {
        profile_broken(random, &mut fields);
    }
    let mut offer = offer_of(fields);
    if random.below(8) == 0 {
        break_rule(random, &mut offer, last_day);
    }
    let rule = match random.below(5) {
        0 => Rule::Plain,
        _ => Rule::Profile,
    };
    of_offer(random, offer, rule)
}

/// The same of one of few names.
pub fn named_profile_request(random: &mut Random, last_day: u16) -> Request {
    let mut request = profile_request(random, last_day);
    request.offer.name = random.pick(&NAMES).to_vec();
    if request.log.is_some() {
        request.log = Some(any_log(random, &request.offer));
    }
    request
}

/// A request of one of few names, some of which begin others; plain or by the profile, right or not.
pub fn named_request(random: &mut Random, last_day: u16) -> Request {
    let mut offer = right_offer(random, last_day);
    offer.chances.truncate(1);
    offer.times.truncate(2);
    offer.name = random.pick(&NAMES).to_vec();
    if random.below(10) == 0 {
        break_rule(random, &mut offer, last_day);
    }
    if random.below(12) == 0 {
        offer = offer_of(profile_record(random, last_day));
        offer.name = random.pick(&NAMES).to_vec();
    }
    let rule = match random.below(10) {
        0 => Rule::Profile,
        _ => Rule::Plain,
    };
    of_offer(random, offer, rule)
}

fn of_offer(random: &mut Random, offer: Offer, rule: Rule) -> Request {
    let log = match random.below(3) {
        0 => Some(any_log(random, &offer)),
        _ => None,
    };
    let budget = any_budget(random, &offer);
    Request {
        offer,
        log,
        budget,
        rule,
    }
}

/// A log that has the offer's times; or, now and then, no line of its name, or lines that are spoiled.
fn any_log(random: &mut Random, offer: &Offer) -> Vec<u8> {
    let times: &[u32] = match random.below(8) {
        0 => &[],
        _ => &offer.times,
    };
    let mut lines = lines_of(random, &offer.name, times);
    let faults = random.below(4).saturating_sub(1).min(lines.len() as u64);
    for _ in 0..faults {
        let at = random.below(lines.len() as u64) as usize;
        lines[at] = spoiled(random, &lines[at], &offer.name);
    }
    lines.concat()
}

pub fn length_of(offer: &Offer) -> usize {
    12 + offer.name.len() + 12 * offer.chances.len() + 4 * offer.times.len()
}

/// None, or one around the offer's length or below it.
fn any_budget(random: &mut Random, offer: &Offer) -> Option<usize> {
    let length = length_of(offer);
    match random.below(12) {
        0 => Some(0),
        1 => Some(length - 1),
        2 => Some(length),
        3 => Some(length + 1),
        4..=6 => Some(random.below(length as u64) as usize),
        7 | 8 => Some(usize::MAX - random.below(2) as usize),
        _ => None,
    }
}

fn offer_of(fields: Fields) -> Offer {
    Offer {
        day: fields.day,
        name: fields.name,
        chances: fields.chances,
        times: fields.times,
    }
}

pub fn right_offer(random: &mut Random, last_day: u16) -> Offer {
    let day = last_day.saturating_add(random.below(3) as u16);
    offer_of(record(random, day, OFFERED))
}

pub fn offer_of_size(random: &mut Random, day: u16, size: usize) -> Offer {
    offer_of(record_of_size(random, day, size, OFFERED))
}

/// An offer that is right, that takes exactly the room or one byte more or less, or that breaks a rule or several.
fn any_offer(random: &mut Random, last_day: u16, room: usize) -> Offer {
    let mut offer = right_offer(random, last_day);
    let size = (room + 1).saturating_sub(random.below(3) as usize);
    if random.below(4) == 0 && (SMALLEST..=LARGEST).contains(&size) {
        offer = offer_of_size(random, last_day, size);
    }
    let broken = if random.below(4) == 0 {
        random.whole(1, 3)
    } else {
        0
    };
    for _ in 0..broken {
        break_rule(random, &mut offer, last_day);
    }
    offer
}

fn break_rule(random: &mut Random, offer: &mut Offer, last_day: u16) {
    match random.below(10) {
        0 | 1 => offer.day = last_day.wrapping_sub(1),
        2 => offer.name.resize(*random.pick(&[0, 32, 33, 1_000]), b'x'),
        3 => offer.name.push(*random.pick(&NAME_BYTES)),
        4 => offer.chances.clear(),
        5 => offer.chances = (1..=*random.pick(&[8, 9, 100])).collect(),
        6 => offer.chances.push(*random.pick(&CHANCES)),
        7 => offer
            .times
            .resize(*random.pick(&[0, 1, 128, 129, 1_000]), 5),
        8 => offer.times.push(*random.pick(&TIMES)),
        _ => offer.times.insert(0, *random.pick(&TIMES)),
    }
}
