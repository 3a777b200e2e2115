// A record's fields, of bytes that the library has judged.
// docs/DEFINITION.md, section 9, has the layout.

use crate::Volume;

/// A record: its fields, and mean and spread as the definition gives them.
#[derive(Clone, Debug, PartialEq)]
pub struct Record {
    pub form: u32,
    pub day: u16,
    pub name: String,
    pub mark: char,
    pub mean: f64,
    pub spread: f64,
    pub times: Vec<u32>,
    /// Each chance in a million with its limit in ticks.
    pub limits: Vec<(u32, f64)>,
}

impl Record {
    /// The record that stands first in some bytes, and how many of them it has.
    pub(crate) fn first_of(bytes: &[u8]) -> (Record, usize) {
        let mut fields = Fields { bytes, at: 0 };
        let [form, day] = [fields.number(2), fields.number(2)];
        let name = fields
            .section(1)
            .into_iter()
            .map(|byte| byte as u8 as char)
            .collect();
        let chances = fields.section(4);
        let times: Vec<u32> = fields
            .section(4)
            .into_iter()
            .map(|time| time as u32)
            .collect();
        let limits = fields.section(8).into_iter().map(f64::from_bits);
        let limits: Vec<(u32, f64)> = chances
            .iter()
            .map(|&chance| chance as u32)
            .zip(limits)
            .collect();
        let size = fields.at;
        let own = Volume::new(&bytes[..size]);
        let mark = own.mark(0).expect("the record was judged");
        let worked = crate::limit(form as u32, &times, limits[0].0).expect("the record was judged");
        let [mean, spread] = [worked.mean, worked.spread];
        (
            Record {
                form: form as u32,
                day: day as u16,
                name,
                mark,
                mean,
                spread,
                times,
                limits,
            },
            size,
        )
    }

    /// The record's line of the listing, without its line end.
    pub fn line(&self) -> String {
        let mut line = format!(
            "{} {} {} {:016x} {:016x}",
            self.name,
            self.day,
            self.mark,
            self.mean.to_bits(),
            self.spread.to_bits()
        );
        for (chance, limit) in &self.limits {
            line += &format!(" {chance}:{:016x}", limit.to_bits());
        }
        line
    }
}

/// Bytes that are read front to back.
struct Fields<'a> {
    bytes: &'a [u8],
    at: usize,
}

impl Fields<'_> {
    /// A little-endian number of so many bytes.
    fn number(&mut self, size: usize) -> u64 {
        let field = &self.bytes[self.at..self.at + size];
        self.at += size;
        field
            .iter()
            .rev()
            .fold(0, |number, &byte| number << 8 | u64::from(byte))
    }

    /// A count, and as many numbers of so many bytes.
    fn section(&mut self, size: usize) -> Vec<u64> {
        let count = self.number(2);
        (0..count).map(|_| self.number(size)).collect()
    }
}
