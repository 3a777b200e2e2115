// Valid journals made of random records: of form 1 up to a place, of form 2 from there on; or of the profile, or nearly so.
// The records' fields are drawn in rust/inputs, their bytes made here.

use crate::limit::Form;
use crate::record::Record;
use crate::scan::MAX_LENGTH;
use inputs::journal::{profile_broken, profile_record, record, record_of_size, Fields};
use inputs::journal::{LARGEST, READ, SMALLEST};
use inputs::random::Random;

/// The record of some fields.
pub fn encoded(form: Form, fields: &Fields) -> Record {
    Record::new(
        form,
        fields.day,
        &fields.name,
        &fields.chances,
        &fields.times,
    )
}

/// Form 1 below the turn, form 2 from there on.
fn form_at(place: usize, turn: usize) -> Form {
    if place < turn {
        Form::Plain
    } else {
        Form::Sample
    }
}

/// So many records whose forms and days never fall.
pub fn records(random: &mut Random, count: u64) -> Vec<Record> {
    let old = random.below(count + 1) as usize;
    records_with(random, count as usize, old)
}

/// So many records of form 1, whose days never fall.
pub fn old_records(random: &mut Random, count: u64) -> Vec<Record> {
    records_with(random, count as usize, count as usize)
}

fn records_with(random: &mut Random, count: usize, old: usize) -> Vec<Record> {
    let mut day = random.below(1 << 16) as u16 >> random.below(16);
    let mut records = Vec::new();
    for i in 0..count {
        records.push(encoded(form_at(i, old), &record(random, day, READ)));
        day = day.saturating_add(random.below(3) as u16);
    }
    records
}

/// So many records of the profile; of every second list one record breaks it, the first perhaps by its form.
pub fn profile_records(random: &mut Random, count: usize) -> Vec<Record> {
    let mut day = random.below(100) as u16;
    let broken = random.below(2 * count as u64) as usize;
    let mut records = Vec::new();
    for i in 0..count {
        let mut fields = profile_record(random, day);
        let old = i == broken && i == 0 && random.below(2) == 0;
        if i == broken && !old {
            profile_broken(random, &mut fields);
        }
        records.push(encoded(form_at(0, old.into()), &fields));
        day += random.below(3) as u16;
    }
    records
}

/// A record's size, the drawn one where it leaves no rest or room for another record.
pub fn fitting(drawn: usize, rest: usize) -> usize {
    match drawn {
        size if size + SMALLEST <= rest => size,
        _ if rest <= LARGEST => rest,
        _ => rest - SMALLEST.max(rest - LARGEST),
    }
}

/// Records that take so many bytes, each of the size that `draw` gives where the rest allows.
pub fn filling(random: &mut Random, total: usize, draw: impl Fn(&mut Random) -> usize) -> Vec<u8> {
    filling_with(random, total, draw, |_, _| ())
}

/// The same with other chances, as many: `set` is handed each record's in their order.
pub fn filling_with(
    random: &mut Random,
    total: usize,
    draw: impl Fn(&mut Random) -> usize,
    mut set: impl FnMut(&mut Random, &mut Vec<u32>),
) -> Vec<u8> {
    let turn = random.below(total as u64 + 1) as usize;
    let mut bytes = Vec::new();
    while bytes.len() < total {
        let size = fitting(draw(random), total - bytes.len());
        let form = form_at(bytes.len(), turn);
        let mut fields = record_of_size(random, 7, size, READ);
        set(random, &mut fields.chances);
        bytes.extend(encoded(form, &fields).bytes());
    }
    bytes
}

/// A full journal of records of sizes that `draw` gives.
pub fn full(random: &mut Random, draw: impl Fn(&mut Random) -> usize) -> Vec<u8> {
    filling(random, MAX_LENGTH, draw)
}

/// The smallest record of a name, on day 7.
pub fn smallest(name: &[u8]) -> Record {
    Record::new(Form::Sample, 7, name, &[1_000], &[90, 110])
}

/// Name i of 8,836, which are all that two bytes can be, in no order.
pub fn two_byte_name(i: usize) -> [u8; 2] {
    let n = i * 3_331 % 8_836;
    [n / 94, n % 94].map(|digit| 0x21 + digit as u8)
}

pub fn joined(records: &[Record]) -> Vec<u8> {
    records.iter().flat_map(Record::bytes).collect()
}
