// The band against document 02's formula, worked in rust/reference over the Rust's erf_core and the hardware's root,
// over random and edge sets of times and shares, those that are refused included.

use crate::limit::{random_times, COUNTS, TIMES};
use crate::options::Options;
use crate::tally::{Tally, Totals};
use reference::band::band;

const SHARES: [u32; 9] = [
    0,
    1,
    2,
    9_500,
    500_000,
    999_998,
    999_999,
    1_000_000,
    u32::MAX,
];

pub fn compare(options: &Options, totals: &mut Totals) {
    compare_edges(totals);
    compare_random(options, totals);
}

/// Every count, share and two times of the edges, in turn.
fn compare_edges(totals: &mut Totals) {
    let mut tally = Tally::new("band, edges");
    for count in COUNTS {
        for (first, second) in TIMES.iter().flat_map(|a| TIMES.map(|b| (*a, b))) {
            let times: Vec<u32> = [first, second].into_iter().cycle().take(count).collect();
            SHARES
                .iter()
                .for_each(|share| compare_at(&times, *share, &mut tally));
        }
    }
    tally.close(totals);
}

/// Random times at a random share, and at times one time or the share out of range.
fn compare_random(options: &Options, totals: &mut Totals) {
    let mut tally = Tally::new("band, random");
    let mut random = options.random("band, random");
    for _ in 0..options.times(300_000) {
        let mut times = random_times(&mut random);
        compare_at(&times, random.whole(1, 999_999) as u32, &mut tally);
        let place = random.below(times.len() as u64) as usize;
        times[place] = *random.pick(&TIMES);
        compare_at(&times, *random.pick(&SHARES), &mut tally);
    }
    tally.close(totals);
}

fn compare_at(times: &[u32], share: u32, tally: &mut Tally) {
    let sides = [ours::awaqlla_band_bits(times, share), answer(band(times, share))];
    tally.take(sides, || format!("times {times:?} at {share}"));
}

/// {0, low, high} in bits, or {1, refusal, 0}.
fn answer(band: Result<[f64; 2], u64>) -> [u64; 3] {
    match band {
        Ok([low, high]) => [0, original::bits_of(low), original::bits_of(high)],
        Err(refusal) => [1, refusal, 0],
    }
}
