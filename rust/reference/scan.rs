// Document 01's survey and reading with document 02's forms, over any bytes: the fields in byte order, each judged when its last byte stands,
// and by the profile (2026-14) each record when it is whole. One pass keeps every record's part and mark; it allocates only where a caller asks.

use crate::limit::{chance_fits, Form, Sums, LAST_TIME};
use crate::profile::{in_profile, Rule, BREAKS};
use crate::record::mark;

pub const MAX_LENGTH: usize = 65_536;

/// i is not below the number of records.
pub const ABSENT: u64 = 10;

#[derive(Clone, Copy, Debug, PartialEq, Eq)]
pub enum Status {
    Whole { records: usize, committed: usize },
    Torn { records: usize, committed: usize },
    Damaged { number: u64, place: usize },
}

/// A record's part of the journal, and what else is told of it.
#[derive(Clone, Copy, Debug, PartialEq, Eq)]
pub struct Entry {
    pub start: usize,
    pub size: usize,
    pub form: Form,
    pub day: u16,
    pub mark: u8,
    pub in_profile: bool,
}

/// Why a record is not read to its end.
enum Stop {
    Short,
    Fault { number: u64, place: usize },
}

/// The survey of the first `len` bytes of a slice.
pub fn scan(slice: &[u8], len: usize) -> Status {
    scan_each(Rule::Plain, slice, len, |_| ())
}

/// The survey by a rule, and every record that stands; none where the journal is damaged.
pub fn scan_all(rule: Rule, slice: &[u8], len: usize) -> (Status, Vec<Entry>) {
    let mut entries = Vec::new();
    let status = scan_each(rule, slice, len, |entry| entries.push(entry));
    if let Status::Damaged { .. } = status {
        entries.clear();
    }
    (status, entries)
}

fn scan_each(rule: Rule, slice: &[u8], len: usize, mut tell: impl FnMut(Entry)) -> Status {
    if len > slice.len() || len > MAX_LENGTH {
        return Status::Damaged {
            number: 1,
            place: 0,
        };
    }
    let mut cursor = Cursor {
        bytes: &slice[..len],
        at: 0,
    };
    let (mut records, mut committed, mut before) = (0, 0, None);
    loop {
        match cursor.record(before) {
            Ok(entry) if !rule.takes(entry.in_profile) => {
                return Status::Damaged {
                    number: BREAKS,
                    place: entry.start,
                }
            }
            Ok(entry) => {
                tell(entry);
                records += 1;
                committed = cursor.at;
                before = Some(entry);
            }
            Err(Stop::Fault { number, place }) => return Status::Damaged { number, place },
            Err(Stop::Short) if committed == len => return Status::Whole { records, committed },
            Err(Stop::Short) => return Status::Torn { records, committed },
        }
    }
}

struct Cursor<'a> {
    bytes: &'a [u8],
    at: usize,
}

impl Cursor<'_> {
    /// The next W bytes, or that they do not all stand.
    fn bytes<const W: usize>(&mut self) -> Result<[u8; W], Stop> {
        let field = self.bytes.get(self.at..self.at + W).ok_or(Stop::Short)?;
        self.at += W;
        Ok(field.try_into().expect("W bytes"))
    }

    /// Refuses the field of `width` bytes that was just read, unless it holds.
    fn judge(&self, width: usize, number: u64, holds: bool) -> Result<(), Stop> {
        if holds {
            return Ok(());
        }
        let place = self.at - width;
        Err(Stop::Fault { number, place })
    }

    /// A count from low to high.
    fn count(&mut self, number: u64, low: u16, high: u16) -> Result<u16, Stop> {
        let n = u16::from_le_bytes(self.bytes()?);
        self.judge(2, number, (low..=high).contains(&n))?;
        Ok(n)
    }

    /// A record after the one before it: neither its form nor its day falls.
    fn record(&mut self, before: Option<Entry>) -> Result<Entry, Stop> {
        let start = self.at;
        let form = self.form(before.map(|entry| entry.form))?;
        let day = u16::from_le_bytes(self.bytes()?);
        self.judge(2, 3, before.is_none_or(|entry| entry.day <= day))?;
        self.name()?;
        let mut room = [0; 8];
        let chances = self.chances(&mut room)?;
        let (sums, equal) = self.times()?;
        self.limits(form, chances, &sums)?;
        Ok(Entry {
            start,
            size: self.at - start,
            form,
            day,
            mark: mark(equal, sums.n as usize),
            in_profile: in_profile(form, chances, sums.n as usize),
        })
    }

    /// 2 is any number but 1 and 2, and then 13 is form 1 after form 2.
    fn form(&mut self, before: Option<Form>) -> Result<Form, Stop> {
        let number = u16::from_le_bytes(self.bytes()?);
        self.judge(2, 2, number == 1 || number == 2)?;
        self.judge(2, 13, number == 2 || before != Some(Form::Sample))?;
        Ok(Form::of(number.into()).expect("form 1 or 2"))
    }

    fn name(&mut self) -> Result<(), Stop> {
        for _ in 0..self.count(4, 1, 32)? {
            let [byte] = self.bytes()?;
            self.judge(1, 4, (0x21..=0x7e).contains(&byte))?;
        }
        Ok(())
    }

    fn chances<'r>(&mut self, room: &'r mut [u32; 8]) -> Result<&'r [u32], Stop> {
        let n = usize::from(self.count(5, 1, 8)?);
        let mut before = 0;
        for place in &mut room[..n] {
            let chance = u32::from_le_bytes(self.bytes()?);
            self.judge(4, 5, chance_fits(chance) && chance > before)?;
            before = chance;
            *place = chance;
        }
        Ok(&room[..n])
    }

    /// The times' sums, and whether they are all equal.
    fn times(&mut self) -> Result<(Sums, bool), Stop> {
        let n = self.count(6, 2, 128)?;
        let mut sums = Sums::default();
        let (mut least, mut most) = (u64::MAX, 0);
        for _ in 0..n {
            let time = u64::from(u32::from_le_bytes(self.bytes()?));
            self.judge(4, 6, (1..=LAST_TIME).contains(&time))?;
            sums.add(time);
            least = least.min(time);
            most = most.max(time);
        }
        Ok((sums, least == most))
    }

    fn limits(&mut self, form: Form, chances: &[u32], sums: &Sums) -> Result<(), Stop> {
        let n = u16::from_le_bytes(self.bytes()?);
        self.judge(2, 7, usize::from(n) == chances.len())?;
        for chance in chances {
            let bits = u64::from_le_bytes(self.bytes()?);
            let limit = sums.limit_at(form, *chance);
            self.judge(8, 7, limit.to_bits() == bits)?;
        }
        Ok(())
    }
}
