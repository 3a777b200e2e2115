// The command line: how many random inputs there are, from which seed they are drawn, and which part runs alone.
// A count is given for scale 1, the gate's size; scale 0 leaves the edges alone.

use inputs::random::Random;

pub const USAGE: &str =
    "usage: compare [--scale N] [--seed S] [--only numbers|inverse|reading|histories|merges|trials] [--beside FILE]";

const PARTS: [&str; 6] = [
    "numbers",
    "inverse",
    "reading",
    "histories",
    "merges",
    "trials",
];

pub struct Options {
    pub scale: u64,
    pub seed: u64,
    pub only: Option<String>,
    /// Where the list of what differs from err/inverf.rs goes.
    pub beside: Option<String>,
}

impl Options {
    pub fn read(mut words: impl Iterator<Item = String>) -> Result<Options, String> {
        let mut options = Options {
            scale: 1,
            seed: 1,
            only: None,
            beside: None,
        };
        while let Some(word) = words.next() {
            let value = words.next().ok_or(USAGE)?;
            match word.as_str() {
                "--scale" => options.scale = number(&value)?,
                "--seed" => options.seed = number(&value)?,
                "--beside" => options.beside = Some(value),
                "--only" if PARTS.contains(&value.as_str()) => options.only = Some(value),
                _ => return Err(format!("{USAGE}, not {word} {value}")),
            };
        }
        Ok(options)
    }

    /// Whether this part runs.
    pub fn runs(&self, part: &str) -> bool {
        self.only.as_ref().is_none_or(|only| only == part)
    }

    /// So many random inputs at scale 1.
    pub fn times(&self, count: u64) -> u64 {
        count * self.scale
    }

    /// The generator of a group of inputs: every group has its own, so that one can change and the others stay.
    pub fn random(&self, group: &str) -> Random {
        let mixed = group.bytes().fold(self.seed, |h, byte| {
            (h ^ byte as u64).wrapping_mul(0x100000001b3)
        });
        Random::new(mixed)
    }
}

fn number(text: &str) -> Result<u64, String> {
    text.parse()
        .map_err(|_| format!("{USAGE}, N and S whole numbers"))
}
