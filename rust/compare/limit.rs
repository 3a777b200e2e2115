// Mean, spread, quantile and limit against the papers' formula under both forms, worked in rust/reference with the Rust's quantile and the hardware's root,
// over random and edge sets of times, chances and forms, those that are refused included.

use crate::options::Options;
use crate::tally::{Extremes, Tally, Totals};
use inputs::random::Random;
use reference::limit::{limit, LAST_TIME};

const FORMS: [u32; 9] = [0, 1, 2, 3, 257, 258, 65_535, 65_537, u32::MAX];
const CHANCES: [u32; 9] = [
    0,
    1,
    2,
    1_000,
    500_000,
    999_998,
    999_999,
    1_000_000,
    u32::MAX,
];
pub const TIMES: [u32; 8] = [0, 1, 2, 100, 1_048_574, 1_048_575, 1_048_576, u32::MAX];
pub const COUNTS: [usize; 8] = [0, 1, 2, 3, 127, 128, 129, 1000];

pub fn compare(options: &Options, totals: &mut Totals) {
    let mut limits = Extremes::default();
    compare_edges(options, &mut limits, totals);
    compare_random(options, &mut limits, totals);
    limits.print("limits");
}

/// Every count, form, chance and two times of the edges: the two times in turn, then in random order.
fn compare_edges(options: &Options, limits: &mut Extremes, totals: &mut Totals) {
    let mut tally = Tally::new("limit, edges");
    let mut random = options.random("limit, edges");
    for count in COUNTS {
        for (first, second) in TIMES.iter().flat_map(|a| TIMES.map(|b| (*a, b))) {
            for (form, chance) in FORMS.iter().flat_map(|a| CHANCES.map(|b| (*a, b))) {
                let turns = [first, second].into_iter().cycle();
                let mut times: Vec<u32> = turns.take(count).collect();
                compare_at((form, &times, chance), &mut tally, limits);
                times
                    .iter_mut()
                    .for_each(|time| *time = *random.pick(&[first, second]));
                compare_at((form, &times, chance), &mut tally, limits);
            }
        }
    }
    tally.close(totals);
}

/// Random times within a random spread under both forms, and at times one time, the chance or the form out of range.
fn compare_random(options: &Options, limits: &mut Extremes, totals: &mut Totals) {
    let mut tally = Tally::new("limit, random");
    let mut random = options.random("limit, random");
    for _ in 0..options.times(300_000) {
        let mut times = random_times(&mut random);
        let chance = random.whole(1, 999_999) as u32;
        compare_at((1, &times, chance), &mut tally, limits);
        compare_at((2, &times, chance), &mut tally, limits);
        let place = random.below(times.len() as u64) as usize;
        times[place] = *random.pick(&TIMES);
        let form = *random.pick(&FORMS);
        compare_at((form, &times, *random.pick(&CHANCES)), &mut tally, limits);
    }
    tally.close(totals);
}

pub fn random_times(random: &mut Random) -> Vec<u32> {
    let count = random.whole(2, 128);
    let low = random.whole(1, LAST_TIME);
    let spread = random.whole(1, LAST_TIME) >> random.below(20);
    let high = LAST_TIME.min(low + spread);
    (0..count).map(|_| random.whole(low, high) as u32).collect()
}

fn compare_at((form, times, chance): (u32, &[u32], u32), tally: &mut Tally, limits: &mut Extremes) {
    let expected = limit(form, times, chance);
    let input = || format!("times {times:?} at {chance} under form {form}");
    let sides = [ours::awaqlla_limit_bits(form, times, chance), answer(expected)];
    tally.take(sides, input);
    if let Ok([.., limit]) = expected {
        limits.take(limit, tally, input);
    }
}

/// {0, bits of the four figures} or {1, refusal, 0, 0, 0}.
fn answer(figures: Result<[f64; 4], u64>) -> [u64; 5] {
    match figures.map(|figures| figures.map(original::bits_of)) {
        Ok([mean, spread, quantile, limit]) => [0, mean, spread, quantile, limit],
        Err(refusal) => [1, refusal, 0, 0, 0],
    }
}
