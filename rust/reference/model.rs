// Document 01, Book of demand 3: what a list of calls should have made, fed the calls' arguments and the slice's length alone;
// and append on any slice, which surveys it first. New records are form 2 and have chances up to 500,000 (document 02, 2026-04, 2026-10);
// their times may come from a log, which is judged before all else (2026-01), a profile call takes profile volumes and leaves alone (2026-14),
// and an index that is handed is judged last and amended (2026-08).

use crate::index::{amend, index_of, name_of, Named, NO_ROOM};
use crate::limit::{chance_fits, count_fits, time_fits, Form, LAST_OFFERED};
use crate::log::{gather, Refused};
use crate::profile::{Rule, BREAKS};
use crate::record::{name_fits, Record};
use crate::scan::{scan_all, Entry, Status, MAX_LENGTH};

/// What a call offers.
#[derive(Clone, Debug, Default)]
pub struct Offer {
    pub day: u16,
    pub name: Vec<u8>,
    pub chances: Vec<u32>,
    pub times: Vec<u32>,
}

/// What a call is handed besides the journal: an offer, a log that has its times where there is one, k, all where there is none, and the rule
/// that it goes by.
#[derive(Clone, Debug, Default)]
pub struct Request {
    pub offer: Offer,
    pub log: Option<Vec<u8>>,
    pub budget: Option<usize>,
    pub rule: Rule,
}

impl Request {
    /// What it offers: with the log's times in place of its own, or not at all where a line is refused.
    pub fn offered(&self) -> Result<Offer, Refused> {
        let times = match &self.log {
            None => self.offer.times.clone(),
            Some(log) => gather(&self.offer.name, log)?,
        };
        Ok(Offer {
            times,
            ..self.offer.clone()
        })
    }

    /// How many of a record's bytes may be written.
    fn written(&self, length: usize) -> usize {
        self.budget.map_or(length, |k| k.min(length))
    }
}

#[derive(Clone, Copy, Debug, PartialEq, Eq)]
pub enum Answer {
    Length(usize),
    Declined(u64),
    DeclinedAt(Refused),
    Damaged { number: u64, place: usize },
}

/// The records that were written to their last byte, and the torn tail.
#[derive(Clone, Debug, Default)]
pub struct Model {
    pub records: Vec<Vec<u8>>,
    pub entries: Vec<Entry>,
    pub tail: Vec<u8>,
}

impl Model {
    /// Of a journal that stands, with these records and this torn tail.
    pub fn of(records: &[Record], tail: &[u8]) -> Model {
        let mut model = Model::default();
        records.iter().for_each(|record| model.push(record));
        model.tail = tail.to_vec();
        model
    }

    /// A record more, written to its last byte.
    fn push(&mut self, record: &Record) {
        let bytes = record.bytes();
        self.entries.push(Entry {
            start: self.committed(),
            size: bytes.len(),
            form: Form::of(record.form.into()).expect("form 1 or 2"),
            day: record.day,
            mark: record.mark(),
            in_profile: record.in_profile(),
        });
        self.records.push(bytes);
        self.tail.clear();
    }

    /// The sum of the records' lengths.
    pub fn committed(&self) -> usize {
        self.records.iter().map(Vec::len).sum()
    }

    /// The journal's length.
    pub fn len(&self) -> usize {
        self.committed() + self.tail.len()
    }

    pub fn is_empty(&self) -> bool {
        self.len() == 0
    }

    /// A call, its answer, and the model and the index's buffer, if it is handed, after it.
    pub fn call(
        &mut self,
        slice_len: usize,
        request: &Request,
        index: Option<&mut [u8]>,
    ) -> Answer {
        settled(self.try_call(slice_len, request, index))
    }

    fn try_call(
        &mut self,
        slice_len: usize,
        request: &Request,
        index: Option<&mut [u8]>,
    ) -> Result<usize, Answer> {
        let offer = request.offered().map_err(Answer::DeclinedAt)?;
        if let Some(place) = self.fault(request.rule) {
            let number = BREAKS;
            return Err(Answer::Damaged { number, place });
        }
        let (committed, last_day) = (self.committed(), self.entries.last().map(|e| e.day));
        let record = record_of(&offer, request.rule, last_day, committed, slice_len)
            .map_err(Answer::Declined)?;
        let bytes = record.bytes();
        let written = request.written(bytes.len());
        let finished = written == bytes.len();
        if let Some(buffer) = index {
            let with_record = index_of(self.names().chain([(&record.name[..], committed)]));
            amend(buffer, &self.index(), &with_record, finished).map_err(Answer::Declined)?;
        }
        if finished {
            self.push(&record);
        } else {
            self.tail = bytes[..written].to_vec();
        }
        Ok(self.len())
    }

    /// Each record's name and start.
    pub fn names(&self) -> impl Iterator<Item = Named<'_>> {
        let starts = self.entries.iter().map(|entry| entry.start);
        self.records
            .iter()
            .map(|record| name_of(record))
            .zip(starts)
    }

    /// Its index.
    pub fn index(&self) -> Vec<u8> {
        index_of(self.names())
    }

    /// The first byte of the first record that stands and breaks the rule.
    fn fault(&self, rule: Rule) -> Option<usize> {
        let broken = |entry: &&Entry| !rule.takes(entry.in_profile);
        self.entries.iter().find(broken).map(|entry| entry.start)
    }

    /// What survey answers by a rule.
    pub fn status(&self, rule: Rule) -> Status {
        let (records, committed) = (self.records.len(), self.committed());
        if let Some(place) = self.fault(rule) {
            let number = BREAKS;
            Status::Damaged { number, place }
        } else if self.tail.is_empty() {
            Status::Whole { records, committed }
        } else {
            Status::Torn { records, committed }
        }
    }

    /// The journal's bytes.
    pub fn bytes(&self) -> Vec<u8> {
        [self.records.concat(), self.tail.clone()].concat()
    }
}

/// The record that an offer makes, or the first refusal that holds.
fn record_of(
    offer: &Offer,
    rule: Rule,
    last_day: Option<u16>,
    committed: usize,
    slice_len: usize,
) -> Result<Record, u64> {
    if last_day.is_some_and(|day| offer.day < day) {
        return Err(3);
    }
    if !name_fits(&offer.name) {
        return Err(4);
    }
    if !chances_fit(&offer.chances) {
        return Err(5);
    }
    if offer.chances.iter().any(|chance| *chance > LAST_OFFERED) {
        return Err(17);
    }
    if !count_fits(offer.times.len()) || !offer.times.iter().all(|time| time_fits(*time)) {
        return Err(6);
    }
    let record = Record::new(
        Form::Sample,
        offer.day,
        &offer.name,
        &offer.chances,
        &offer.times,
    );
    if !rule.takes(record.in_profile()) {
        return Err(BREAKS);
    }
    if committed + record.bytes().len() > slice_len.min(MAX_LENGTH) {
        return Err(9);
    }
    Ok(record)
}

fn chances_fit(chances: &[u32]) -> bool {
    let rising = chances.windows(2).all(|pair| pair[0] < pair[1]);
    (1..=8).contains(&chances.len()) && chances.iter().all(|chance| chance_fits(*chance)) && rising
}

/// A call on the first `len` bytes of any slice: its answer, and the slice's bytes and those of the index's buffer after it. The log is read
/// before the journal.
pub fn append(slice: &mut [u8], len: usize, request: &Request, index: Option<&mut [u8]>) -> Answer {
    settled(try_append(slice, len, request, index))
}

fn try_append(
    slice: &mut [u8],
    len: usize,
    request: &Request,
    index: Option<&mut [u8]>,
) -> Result<usize, Answer> {
    let offer = request.offered().map_err(Answer::DeclinedAt)?;
    let (committed, entries) = standing(request.rule, slice, len)?;
    let last_day = entries.last().map(|entry| entry.day);
    let record = record_of(&offer, request.rule, last_day, committed, slice.len())
        .map_err(Answer::Declined)?;
    let bytes = record.bytes();
    let written = request.written(bytes.len());
    if let Some(buffer) = index {
        let names = names_in(slice, &entries);
        let before = index_of(names.iter().copied());
        let with_record = index_of(names.into_iter().chain([(&record.name[..], committed)]));
        amend(buffer, &before, &with_record, written == bytes.len()).map_err(Answer::Declined)?;
    }
    slice[committed..committed + written].copy_from_slice(&bytes[..written]);
    Ok(committed + written)
}

/// The index of the journal in the first `len` bytes of a slice, made afresh at a buffer's front: its length, as survey declines, or no room.
pub fn make_index(slice: &[u8], len: usize, buffer: &mut [u8]) -> Answer {
    settled(try_index(slice, len, buffer))
}

fn try_index(slice: &[u8], len: usize, buffer: &mut [u8]) -> Result<usize, Answer> {
    let (_, entries) = standing(Rule::Plain, slice, len)?;
    let index = index_of(names_in(slice, &entries).into_iter());
    let front = buffer.get_mut(..index.len());
    front
        .ok_or(Answer::Declined(NO_ROOM))?
        .copy_from_slice(&index);
    Ok(index.len())
}

/// The committed length and the records that stand, or the fault.
pub fn standing(rule: Rule, slice: &[u8], len: usize) -> Result<(usize, Vec<Entry>), Answer> {
    let (status, entries) = scan_all(rule, slice, len);
    match status {
        Status::Damaged { number, place } => Err(Answer::Damaged { number, place }),
        Status::Whole { committed, .. } | Status::Torn { committed, .. } => {
            Ok((committed, entries))
        }
    }
}

/// Each record's name and start.
pub fn names_in<'a>(slice: &'a [u8], entries: &[Entry]) -> Vec<Named<'a>> {
    let name = |entry: &Entry| (name_of(&slice[entry.start..]), entry.start);
    entries.iter().map(name).collect()
}

/// A length, or what stands in its way.
fn settled(result: Result<usize, Answer>) -> Answer {
    result.map_or_else(|refused| refused, Answer::Length)
}
