// Document 01, Leaf, with document 02's forms: a record's fields and their bytes.
// A record here may break every rule: the encoding takes it as it is, so that wrong ones can be made too.

use crate::limit::{Form, Sums};
use crate::profile::in_profile;

#[derive(Clone, Debug, Default, PartialEq, Eq)]
pub struct Record {
    pub form: u16,
    pub day: u16,
    pub name: Vec<u8>,
    pub chances: Vec<u32>,
    pub times: Vec<u32>,
    pub limits: Vec<u64>,
}

/// The marks' letters, and from how many times on a set is not few.
pub const FLAT: u8 = b'F';
pub const FEW: u8 = b'S';
pub const NORMAL: u8 = b'N';
pub const NOT_FEW: usize = 8;

impl Record {
    /// The record of these arguments in a form, with its limits by that form's formula. Times and chances are in range.
    pub fn new(form: Form, day: u16, name: &[u8], chances: &[u32], times: &[u32]) -> Record {
        let sums = Sums::of(times);
        Record {
            form: form as u16,
            day,
            name: name.to_vec(),
            chances: chances.to_vec(),
            times: times.to_vec(),
            limits: chances
                .iter()
                .map(|c| sums.limit_at(form, *c).to_bits())
                .collect(),
        }
    }

    /// The record that stands at the front of these bytes.
    pub fn standing(bytes: &[u8]) -> Record {
        let mut rest = bytes;
        let [form, day] = [(); 2].map(|()| u16::from_le_bytes(taken(&mut rest)));
        Record {
            form,
            day,
            name: section(&mut rest, u8::from_le_bytes),
            chances: section(&mut rest, u32::from_le_bytes),
            times: section(&mut rest, u32::from_le_bytes),
            limits: section(&mut rest, u64::from_le_bytes),
        }
    }

    /// The record of the same arguments in the other form, where its own is one of the two.
    pub fn in_other_form(&self) -> Record {
        let form = Form::of(self.form.into()).expect("form 1 or 2").other();
        Record::new(form, self.day, &self.name, &self.chances, &self.times)
    }

    /// Its bytes, with each section's count as it is.
    pub fn bytes(&self) -> Vec<u8> {
        self.bytes_counted(self.counts())
    }

    /// The counts of its four sections.
    pub fn counts(&self) -> [u16; 4] {
        [
            self.name.len(),
            self.chances.len(),
            self.times.len(),
            self.limits.len(),
        ]
        .map(|n| n as u16)
    }

    /// Its bytes with other counts before the sections.
    pub fn bytes_counted(&self, [name, chances, times, limits]: [u16; 4]) -> Vec<u8> {
        let mut bytes = [self.form, self.day, name].map(u16::to_le_bytes).concat();
        bytes.extend_from_slice(&self.name);
        bytes.extend(chances.to_le_bytes());
        bytes.extend(self.chances.iter().flat_map(|x| x.to_le_bytes()));
        bytes.extend(times.to_le_bytes());
        bytes.extend(self.times.iter().flat_map(|x| x.to_le_bytes()));
        bytes.extend(limits.to_le_bytes());
        bytes.extend(self.limits.iter().flat_map(|x| x.to_le_bytes()));
        bytes
    }

    /// Whether it is one of the profile; its form is one of the two.
    pub fn in_profile(&self) -> bool {
        let form = Form::of(self.form.into()).expect("form 1 or 2");
        in_profile(form, &self.chances, self.times.len())
    }

    /// The letter of its mark.
    pub fn mark(&self) -> u8 {
        let first = self.times.first();
        let equal = self.times.iter().all(|time| Some(time) == first);
        mark(equal, self.times.len())
    }
}

/// The next W bytes of a record that stands.
fn taken<const W: usize>(rest: &mut &[u8]) -> [u8; W] {
    let (bytes, behind) = rest.split_first_chunk().expect("a record that stands");
    *rest = behind;
    *bytes
}

/// The numbers of W bytes each behind their count.
fn section<const W: usize, T>(rest: &mut &[u8], number: fn([u8; W]) -> T) -> Vec<T> {
    let count = u16::from_le_bytes(taken(rest));
    (0..count).map(|_| number(taken(rest))).collect()
}

pub fn name_fits(name: &[u8]) -> bool {
    (1..=32).contains(&name.len()) && name.iter().all(|byte| (0x21..=0x7e).contains(byte))
}

/// The letter of the mark of so many times, by whether they are all equal: S first, then F, then N (document 02, 2026-07).
pub fn mark(equal: bool, times: usize) -> u8 {
    if times < NOT_FEW {
        FEW
    } else if equal {
        FLAT
    } else {
        NORMAL
    }
}
