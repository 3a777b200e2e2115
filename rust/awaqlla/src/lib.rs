//! Awaqlla from Rust: a safe wrapper over the archive libawaqlla.a. A [`Volume`] is a journal in memory; whatever is refused is a [`Refused`], with the
//! refusal's number (docs/DEFINITION.md, section 10) and its place. A figure is the double that the definition gives, to its last bit.

#[allow(dead_code)] // the calls with an index and by a budget of a log are for who needs them
mod calls;
mod record;

pub use record::Record;
use std::fmt;

/// The most bytes of a journal, and of a line of its listing.
pub const MAX_LENGTH: usize = 65536;
pub const MAX_LINE: usize = 267;

/// Who refuses: what was offered or asked for; a journal's fault; a line of a log; an input of a merge that ends torn.
#[derive(Clone, Copy, Debug, PartialEq, Eq)]
pub enum Kind {
    Declined,
    Damaged,
    LineRefused,
    InputTorn,
}

/// A refusal: its number, its place where there is one, and of a merge whose journal it is, 1 or 2.
#[derive(Clone, Copy, Debug, PartialEq, Eq)]
pub struct Refused {
    pub kind: Kind,
    pub number: u64,
    pub place: Option<u64>,
    pub whose: Option<u64>,
}

impl fmt::Display for Refused {
    fn fmt(&self, out: &mut fmt::Formatter) -> fmt::Result {
        write!(out, "{:?} {}", self.kind, self.number)?;
        match self.place {
            Some(place) => write!(out, " at byte {place}"),
            None => Ok(()),
        }
    }
}

impl std::error::Error for Refused {}

/// The words of an answer behind the first, or what refuses it. `third` is what the first word 3 means.
fn answer<const N: usize>(words: [u64; N], third: Kind) -> Result<[u64; N], Refused> {
    let kind = match words[0] {
        0 => return Ok(words),
        1 => Kind::Declined,
        2 => Kind::Damaged,
        _ => third,
    };
    let place = match kind {
        Kind::Declined => Some(words[2]).filter(|&place| place > 0),
        Kind::InputTorn => None,
        _ => Some(words[2]),
    };
    Err(Refused {
        kind,
        number: words[1],
        place,
        whose: (N == 4 && words[3] > 0).then(|| words[N - 1]),
    })
}

/// The square root, correctly rounded.
pub fn sqrt(x: f64) -> f64 {
    f64::from_bits(calls::awaqlla_sqrt_bits(x.to_bits()))
}

/// The quantile: the inverse of the complementary error function.
pub fn f_erfcinv(x: f64) -> f64 {
    f64::from_bits(calls::awaqlla_f_erfcinv_bits(x.to_bits()))
}

/// The inverse of the error function.
pub fn f_erfinv(x: f64) -> f64 {
    f64::from_bits(calls::awaqlla_f_erfinv_bits(x.to_bits()))
}

/// Mean, spread, quantile and limit of some times at a chance.
#[derive(Clone, Copy, Debug, PartialEq)]
pub struct Limit {
    pub mean: f64,
    pub spread: f64,
    pub quantile: f64,
    pub limit: f64,
}

/// The limit of times in ticks at a chance in a million, under a form.
pub fn limit(form: u32, times: &[u32], chance: u32) -> Result<Limit, Refused> {
    let [_, figures @ ..] = answer(
        calls::awaqlla_limit_bits(form, times, chance),
        Kind::Declined,
    )?;
    let [mean, spread, quantile, limit] = figures.map(f64::from_bits);
    Ok(Limit {
        mean,
        spread,
        quantile,
        limit,
    })
}

/// The shortest and the longest time around the mean with a share in a million inside.
pub fn band(times: &[u32], share: u32) -> Result<(f64, f64), Refused> {
    let [_, low, high] = answer(calls::awaqlla_band_bits(times, share), Kind::Declined)?;
    Ok((f64::from_bits(low), f64::from_bits(high)))
}

/// The end state of a journal.
#[derive(Clone, Copy, Debug, PartialEq, Eq)]
pub struct State {
    pub torn: bool,
    pub records: usize,
    pub committed: usize,
}

/// What is appended: day since 1 January 2000, name, chances in a million, and times in ticks, which an append of a log does not look at.
pub use calls::Offer;

/// What a log's links of a name did at its limits.
#[derive(Clone, Debug, PartialEq, Eq)]
pub struct Trial {
    pub links: u64,
    pub overs: Vec<u64>,
    pub exceeded: Option<u64>,
}

/// A journal in memory. A call that is refused changes nothing.
pub struct Volume {
    slice: Vec<u8>,
    len: usize,
}

impl Volume {
    /// The journal of some bytes, with room to append up to [`MAX_LENGTH`].
    pub fn new(bytes: &[u8]) -> Volume {
        let mut slice = bytes.to_vec();
        slice.resize(bytes.len().max(MAX_LENGTH), 0);
        Volume {
            slice,
            len: bytes.len(),
        }
    }

    pub fn bytes(&self) -> &[u8] {
        &self.slice[..self.len]
    }

    /// The end state, by the profile or plainly.
    pub fn scan(&self, profile: bool) -> Result<State, Refused> {
        let scan = if profile {
            calls::awaqlla_profile_scan
        } else {
            calls::awaqlla_scan
        };
        match scan(&self.slice, self.len) {
            [state @ (0 | 1), records, committed] => Ok(State {
                torn: state == 1,
                records: records as usize,
                committed: committed as usize,
            }),
            words => {
                Err(answer(words, Kind::LineRefused).expect_err("a scan's third state is a fault"))
            }
        }
    }

    /// The records that stand: the journal is judged once, and then gone through by its counts.
    pub fn records(&self) -> Result<impl Iterator<Item = Record> + '_, Refused> {
        let state = self.scan(false)?;
        let mut rest = &self.bytes()[..state.committed];
        Ok((0..state.records).map(move |_| {
            let (record, size) = Record::first_of(rest);
            rest = &rest[size..];
            record
        }))
    }

    /// The bytes of record i, from 0.
    pub fn part(&self, i: usize) -> Result<&[u8], Refused> {
        self.mark(i)?;
        let [start, size] = calls::awaqlla_part(&self.slice, self.len, i).map(|word| word as usize);
        Ok(&self.slice[start..start + size])
    }

    /// The mark of record i.
    pub fn mark(&self, i: usize) -> Result<char, Refused> {
        self.scan(false)?;
        match calls::awaqlla_mark(&self.slice, self.len, i) {
            number @ ..=64 => Err(Refused {
                kind: Kind::Declined,
                number,
                place: None,
                whose: None,
            }),
            mark => Ok(mark as u8 as char),
        }
    }

    /// Line i of the listing; empty behind its last.
    pub fn line(&self, i: usize) -> String {
        let mut out = [0; MAX_LINE];
        let size = calls::awaqlla_line(self.bytes(), i, &mut out);
        String::from_utf8_lossy(&out[..size]).into_owned()
    }

    /// Appends a record; the length after it.
    pub fn append(&mut self, offer: Offer) -> Result<usize, Refused> {
        let words = calls::awaqlla_append(&mut self.slice, self.len, offer);
        self.appended(words)
    }

    /// The same, its record written as far as a budget of bytes.
    pub fn append_upto(&mut self, offer: Offer, budget: usize) -> Result<usize, Refused> {
        let words = calls::awaqlla_append_upto(&mut self.slice, self.len, offer, budget);
        self.appended(words)
    }

    /// The same of the times that a log has for the offer's name.
    pub fn append_log(&mut self, offer: Offer, log: &[u8]) -> Result<usize, Refused> {
        let words = calls::awaqlla_append_log(&mut self.slice, self.len, offer, log);
        self.appended(words)
    }

    /// The append for safety controllers.
    pub fn append_profile(&mut self, offer: Offer) -> Result<usize, Refused> {
        let words = calls::awaqlla_append_with(
            &mut self.slice,
            self.len,
            offer,
            usize::MAX,
            &mut [],
            calls::PROFILE,
        );
        self.appended(words)
    }

    fn appended(&mut self, words: [u64; 3]) -> Result<usize, Refused> {
        self.len = answer(words, Kind::LineRefused)?[1] as usize;
        Ok(self.len)
    }

    /// The index of the records that stand. An entry has 38 bytes at most, and a record 33 at least.
    pub fn index(&self) -> Result<Vec<u8>, Refused> {
        let mut index = vec![0; 2 + self.len / 33 * 38];
        let words = answer(
            calls::awaqlla_index(&self.slice, self.len, &mut index),
            Kind::LineRefused,
        )?;
        index.truncate(words[1] as usize);
        Ok(index)
    }

    /// This journal's records and another's, by day.
    pub fn merge(&self, second: &Volume) -> Result<Volume, Refused> {
        let mut slice = vec![0; MAX_LENGTH];
        let words = calls::awaqlla_merge(
            (&self.slice, self.len),
            (&second.slice, second.len),
            &mut slice,
        );
        let len = answer(words, Kind::InputTorn)?[1] as usize;
        Ok(Volume { slice, len })
    }

    /// What the links of a log did at the limits of the entry at a position of the index.
    pub fn trial(&self, log: &[u8], position: usize) -> Result<Trial, Refused> {
        let words = calls::awaqlla_trial(log, &self.slice, self.len, &self.index()?, position);
        let [_, links, chances, exceeded, overs @ ..] = answer(words, Kind::LineRefused)?;
        let overs = overs[..chances as usize].to_vec();
        Ok(Trial {
            links,
            overs,
            exceeded: Some(exceeded).filter(|&chance| chance > 0),
        })
    }

    /// How many lines of a log have names that no record has.
    pub fn unknown(&self, log: &[u8]) -> Result<u64, Refused> {
        let words = calls::awaqlla_trial_unknown(log, &self.slice, self.len, &self.index()?);
        Ok(answer(words, Kind::LineRefused)?[1])
    }
}
