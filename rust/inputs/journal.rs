// Random records, and records with one field at the edge of its range or beyond it.
// A record here is plain numbers: the caller encodes it.

use crate::random::Random;

/// What a record holds besides its limits.
#[derive(Clone, Debug)]
pub struct Fields {
    pub day: u16,
    pub name: Vec<u8>,
    pub chances: Vec<u32>,
    pub times: Vec<u32>,
}

/// The last chance that a reader takes, and the last that append takes.
pub const READ: u64 = 999_999;
pub const OFFERED: u64 = 500_000;

/// The sizes of the smallest and of the largest record.
pub const SMALLEST: usize = 33;
pub const LARGEST: usize = 652;

/// Values at both sides of each range, and far beyond.
pub const FORMS: [u16; 9] = [0, 1, 2, 3, 0x100, 0x101, 0x102, 0x202, u16::MAX];
pub const NAME_COUNTS: [u16; 6] = [0, 1, 32, 33, 0x100, u16::MAX];
pub const NAME_BYTES: [u8; 6] = [0x00, 0x20, 0x21, 0x7e, 0x7f, 0xff];
pub const CHANCE_COUNTS: [u16; 6] = [0, 1, 8, 9, 0x100, u16::MAX];
pub const CHANCES: [u32; 9] = [
    0,
    1,
    500_000,
    500_001,
    900_000,
    999_999,
    1_000_000,
    0x1_000_000,
    u32::MAX,
];
pub const TIME_COUNTS: [u16; 7] = [0, 1, 2, 128, 129, 0x200, u16::MAX];
pub const TIMES: [u32; 6] = [0, 1, 1_048_575, 1_048_576, 0x1_000_000, u32::MAX];

/// Few names, of which some begin others and two are as long as can be.
pub const NAMES: [&[u8]; 10] = [
    b"a",
    b"aa",
    b"ab",
    b"b",
    b"a!",
    b"a~",
    b"!",
    b"~",
    b"aaaaaaaaaaaaaaaaaaaaaaaaaaaaaaaa",
    b"aaaaaaaaaaaaaaaaaaaaaaaaaaaaaaab",
];

/// The chances of the profile (document 02, 2026-14), the fewest times of it, and chances that are nearly those.
pub const PROFILE: [u32; 4] = [1, 10, 100, 1_000];
pub const PROFILE_TIMES: usize = 32;
pub const NEARLY_PROFILE: [&[u32]; 9] = [
    &[1],
    &[1, 10, 100],
    &[10, 100, 1_000],
    &[1, 10, 1_000],
    &[2, 10, 100, 1_000],
    &[1, 11, 100, 1_000],
    &[1, 10, 100, 1_001],
    &[1, 10, 100, 1_000, 1_001],
    &[1, 2, 10, 100, 1_000],
];

/// A record of the profile, in form 2.
pub fn profile_record(random: &mut Random, day: u16) -> Fields {
    let name = random.whole(1, 8) as usize;
    let times = match random.below(3) {
        0 => *random.pick(&[PROFILE_TIMES, PROFILE_TIMES + 1, 128]),
        _ => random.whole(PROFILE_TIMES as u64, 48) as usize,
    };
    let fields = sized(random, day, [name, 1, times], OFFERED);
    Fields {
        chances: PROFILE.to_vec(),
        ..fields
    }
}

/// The same with one thing that breaks the profile: its chances, or too few times.
pub fn profile_broken(random: &mut Random, fields: &mut Fields) {
    match random.below(3) {
        0 => fields.chances = random.pick(&NEARLY_PROFILE).to_vec(),
        1 => fields.times.truncate(PROFILE_TIMES - 1),
        _ => fields
            .times
            .truncate(random.whole(2, PROFILE_TIMES as u64 - 1) as usize),
    }
}

/// A record in range with chances up to `last`, mostly a small one.
pub fn record(random: &mut Random, day: u16, last: u64) -> Fields {
    let (name, chances, times) = match random.below(8) {
        0 => (
            random.whole(1, 32),
            random.whole(1, 8),
            random.whole(2, 128),
        ),
        1 => (
            *random.pick(&[1, 32]),
            *random.pick(&[1, 8]),
            *random.pick(&[2, 7, 8, 128]),
        ),
        _ => (random.whole(1, 4), random.whole(1, 3), random.whole(2, 10)),
    };
    sized(
        random,
        day,
        [name, chances, times].map(|n| n as usize),
        last,
    )
}

/// A record in range of a given size, SMALLEST to LARGEST, with chances up to `last`.
pub fn record_of_size(random: &mut Random, day: u16, size: usize, last: u64) -> Fields {
    let chances = random
        .whole(1, 8)
        .min((size as u64 - SMALLEST as u64) / 12 + 1) as usize;
    let chances = chances.max(size.saturating_sub(12 + 32 + 512).div_ceil(12));
    let rest = size - 12 - 12 * chances;
    // The times take four bytes each, and the name what is left: 1 to 32.
    let most = ((rest - 1) / 4).min(128);
    let least = rest.saturating_sub(32).div_ceil(4).max(2);
    let times = random.whole(least as u64, most as u64) as usize;
    sized(random, day, [rest - 4 * times, chances, times], last)
}

fn sized(random: &mut Random, day: u16, [name, chances, times]: [usize; 3], last: u64) -> Fields {
    Fields {
        day,
        name: (0..name).map(|_| random.whole(0x21, 0x7e) as u8).collect(),
        chances: rising_chances(random, chances, last),
        times: drawn_times(random, times),
    }
}

/// So many chances up to `last`, which rise.
pub fn rising_chances(random: &mut Random, n: usize, last: u64) -> Vec<u32> {
    let mut chances: Vec<u32> = Vec::new();
    while chances.len() < n {
        let drawn = match random.below(4) {
            0 => *random.pick(&[1, 2, OFFERED, last - 1, last]),
            _ => random.whole(1, last),
        };
        chances.push(drawn as u32);
        chances.sort_unstable();
        chances.dedup();
    }
    chances
}

/// Equal times now and then, or times within a random spread.
fn drawn_times(random: &mut Random, n: usize) -> Vec<u32> {
    let last = 1_048_575;
    let low = match random.below(4) {
        0 => *random.pick(&[1, last]),
        _ => random.whole(1, last),
    };
    let spread = match random.below(3) {
        0 => 0,
        _ => random.whole(0, last) >> random.below(20),
    };
    let high = last.min(low + spread);
    (0..n).map(|_| random.whole(low, high) as u32).collect()
}
