// Document 02, 2026-09: two journals merged into a third buffer, from the paper's sentences. The records of both, less the dropped ones, are put
// one list behind the other and sorted by day, equal days in their sequence.

use crate::limit::Form;
use crate::profile::Rule;
use crate::scan::{scan_all, Entry, Status, MAX_LENGTH};
use std::collections::HashSet;

/// The first input or the second, by its number in the answer's words.
#[derive(Clone, Copy, Debug, PartialEq, Eq)]
pub enum Whose {
    First = 1,
    Second = 2,
}

#[derive(Clone, Copy, Debug, PartialEq, Eq)]
pub enum Merged {
    Length(usize),
    /// 9.
    NoRoom,
    /// 13, and where the record starts in the result.
    OldForm {
        place: usize,
    },
    Damaged {
        number: u64,
        place: usize,
        whose: Whose,
    },
    /// 16.
    Torn {
        whose: Whose,
    },
}

/// A journal's slice, its length, and whose it is.
struct Input<'a> {
    slice: &'a [u8],
    status: Status,
    entries: Vec<Entry>,
    whose: Whose,
}

impl Input<'_> {
    fn of((slice, len): (&[u8], usize), whose: Whose) -> Input<'_> {
        let (status, entries) = scan_all(Rule::Plain, slice, len);
        Input {
            slice,
            status,
            entries,
            whose,
        }
    }

    /// Each record with its bytes.
    fn records(&self) -> impl Iterator<Item = (Entry, &[u8])> {
        let bytes = |entry: &Entry| &self.slice[entry.start..entry.start + entry.size];
        self.entries.iter().map(move |entry| (*entry, bytes(entry)))
    }
}

/// The answer; where it is a length, the result stands at the front of `out`.
pub fn merge(first: (&[u8], usize), second: (&[u8], usize), out: &mut [u8]) -> Merged {
    let inputs = [
        Input::of(first, Whose::First),
        Input::of(second, Whose::Second),
    ];
    let damaged = inputs.iter().find_map(|input| match input.status {
        Status::Damaged { number, place } => Some(Merged::Damaged {
            number,
            place,
            whose: input.whose,
        }),
        _ => None,
    });
    let torn = inputs
        .iter()
        .find(|input| matches!(input.status, Status::Torn { .. }))
        .map(|input| Merged::Torn { whose: input.whose });
    if let Some(refusal) = damaged.or(torn) {
        return refusal;
    }
    let result = result_of(&inputs);
    if let Some(place) = old_after_new(&result) {
        return Merged::OldForm { place };
    }
    let bytes: Vec<u8> = result
        .iter()
        .flat_map(|(_, bytes)| *bytes)
        .copied()
        .collect();
    if bytes.len() > out.len() || bytes.len() > MAX_LENGTH {
        return Merged::NoRoom;
    }
    out[..bytes.len()].copy_from_slice(&bytes);
    Merged::Length(bytes.len())
}

fn result_of<'a>([first, second]: &'a [Input; 2]) -> Vec<(Entry, &'a [u8])> {
    let standing: HashSet<&[u8]> = first.records().map(|(_, bytes)| bytes).collect();
    let kept = second
        .records()
        .filter(|(_, bytes)| !standing.contains(bytes));
    let mut result: Vec<_> = first.records().chain(kept).collect();
    // A stable sort.
    result.sort_by_key(|(entry, _)| entry.day);
    result
}

/// Where the first record of form 1 stands that has one of form 2 before it.
fn old_after_new(result: &[(Entry, &[u8])]) -> Option<usize> {
    let new = result
        .iter()
        .position(|(entry, _)| entry.form == Form::Sample)?;
    let old = result[new..]
        .iter()
        .position(|(entry, _)| entry.form == Form::Plain)?;
    Some(
        result[..new + old]
            .iter()
            .map(|(_, bytes)| bytes.len())
            .sum(),
    )
}
