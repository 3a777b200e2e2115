// Document 02, 2026-14: the profile for safety controllers, and the rule by which a call takes a journal: any volume, or a profile volume alone.
// A profile volume has form 2 records, each with these chances exactly and at least so many times.

use crate::limit::Form;

/// A record breaks the profile.
pub const BREAKS: u64 = 19;

pub const CHANCES: [u32; 4] = [1, 10, 100, 1_000];
pub const LEAST_TIMES: usize = 32;

#[derive(Clone, Copy, Debug, Default, PartialEq, Eq)]
pub enum Rule {
    #[default]
    Plain,
    Profile,
}

impl Rule {
    /// Whether a record is taken, by whether it is one of the profile.
    pub fn takes(self, in_profile: bool) -> bool {
        self == Rule::Plain || in_profile
    }
}

/// Whether a record of this form with these chances and so many times is one of the profile.
pub fn in_profile(form: Form, chances: &[u32], times: usize) -> bool {
    form == Form::Sample && chances == CHANCES && times >= LEAST_TIMES
}
