// Journals with a byte or a field altered, of any records or of the profile.
// A field is set to a value at the edge of its range or beyond it; a count may lie about its section; a record, or its limits alone, may be of
// the other form.

use inputs::journal::{CHANCES, CHANCE_COUNTS, FORMS, NAME_BYTES, NAME_COUNTS, TIMES, TIME_COUNTS};
use inputs::random::Random;
use reference::record::Record;
use reference::samples::{joined, profile_records};

/// Records of the profile, one of which may break it: `any_of` them.
pub fn any_of_profile(random: &mut Random) -> (Vec<u8>, usize, u16) {
    let count = random.whole(1, 4) as usize;
    let some = profile_records(random, count);
    any_of(random, some)
}

/// Records whole or with a field or a byte altered; a length of them, all or some bytes; and the last record's day.
pub fn any_of(random: &mut Random, some: Vec<Record>) -> (Vec<u8>, usize, u16) {
    let day = some.last().map_or(0, |record| record.day);
    let v = match random.below(4) {
        0 => field_altered(random, some),
        1 => byte_altered(random, joined(&some)),
        _ => joined(&some),
    };
    let len = match random.below(3) {
        0 => random.below(v.len() as u64 + 1) as usize,
        _ => v.len(),
    };
    (v, len, day)
}

/// The journal of some records, one of them with a field altered.
pub fn field_altered(random: &mut Random, mut records: Vec<Record>) -> Vec<u8> {
    let at = random.below(records.len() as u64) as usize;
    let day_before = if at == 0 { 0 } else { records[at - 1].day };
    let altered = one_field(random, &mut records[at], day_before);
    records
        .iter()
        .enumerate()
        .flat_map(|(i, record)| {
            if i == at {
                altered.clone()
            } else {
                record.bytes()
            }
        })
        .collect()
}

fn one_field(random: &mut Random, record: &mut Record, day_before: u16) -> Vec<u8> {
    let mut counts = record.counts();
    match random.below(14) {
        0 => record.form = *random.pick(&FORMS),
        1 => record.day = day_before.wrapping_sub(1),
        2 => counts[0] = *random.pick(&NAME_COUNTS),
        3 => *any(random, &mut record.name) = *random.pick(&NAME_BYTES),
        4 => counts[1] = *random.pick(&CHANCE_COUNTS),
        5 => *any(random, &mut record.chances) = *random.pick(&CHANCES),
        6 => {
            let chance = *random.pick(&record.chances);
            *any(random, &mut record.chances) = chance;
        }
        7 => counts[2] = *random.pick(&TIME_COUNTS),
        8 => *any(random, &mut record.times) = *random.pick(&TIMES),
        9 => counts[3] = counts[3].wrapping_add_signed(*random.pick(&[-1, 1, 0x100])),
        10 => {
            let change = *random.pick(&[1, u64::MAX, 1 << 32, 1 << 52, 1 << 63]);
            let bits = any(random, &mut record.limits);
            *bits = bits.wrapping_add(change);
        }
        11 => *record = record.in_other_form(),
        12 => record.limits = record.in_other_form().limits,
        _ => {
            let bits = any(random, &mut record.limits);
            *bits = *random.pick(&[bits.swap_bytes(), 0, 0x7ff0000000000000, 0x7ff8000000000000]);
        }
    }
    record.bytes_counted(counts)
}

/// A journal with one byte changed by one, by a bit, or for any other.
pub fn byte_altered(random: &mut Random, mut bytes: Vec<u8>) -> Vec<u8> {
    let byte = any(random, &mut bytes);
    *byte = match random.below(3) {
        0 => byte.wrapping_add_signed(*random.pick(&[-1, 1])),
        1 => *byte ^ 1 << random.below(8),
        _ => random.bits() as u8,
    };
    bytes
}

fn any<'a, T>(random: &mut Random, items: &'a mut [T]) -> &'a mut T {
    let at = random.below(items.len() as u64) as usize;
    &mut items[at]
}
