// Document 01, Limit, with document 02's forms (2026-04): the formula in f64, one rounding an operation.
// The quantile comes from pxfm itself, the root from the processor.

use inputs::quantile::chance as quantile_argument;

pub const LAST_TIME: u64 = 1_048_575;
pub const MOST_TIMES: usize = 128;
pub const LAST_CHANCE: u32 = 999_999;
/// The last that append takes (document 02, 2026-10); volumes that stand are read up to LAST_CHANCE.
pub const LAST_OFFERED: u32 = 500_000;

/// How the spread is worked out: document 01's form, and document 02's, which every new record has.
#[derive(Clone, Copy, Debug, PartialEq, Eq)]
pub enum Form {
    Plain = 1,
    Sample = 2,
}

impl Form {
    pub fn of(number: u32) -> Option<Form> {
        match number {
            1 => Some(Form::Plain),
            2 => Some(Form::Sample),
            _ => None,
        }
    }

    pub fn other(self) -> Form {
        match self {
            Form::Plain => Form::Sample,
            Form::Sample => Form::Plain,
        }
    }

    /// What D is divided by.
    fn divisor(self, n: u64) -> u64 {
        match self {
            Form::Plain => n * n,
            Form::Sample => n * (n - 1),
        }
    }
}

/// n, S and the sum of squares of a set of times.
#[derive(Clone, Copy, Default)]
pub struct Sums {
    pub n: u64,
    pub sum: u64,
    pub squares: u64,
}

impl Sums {
    pub fn of(times: &[u32]) -> Sums {
        let mut sums = Sums::default();
        times.iter().for_each(|time| sums.add(u64::from(*time)));
        sums
    }

    pub fn add(&mut self, time: u64) {
        self.n += 1;
        self.sum += time;
        self.squares += time * time;
    }

    /// Mean, spread, quantile and limit at a chance that is in range, of times that are.
    #[allow(clippy::approx_constant)] // the digits are the paper's
    pub fn figures_at(&self, form: Form, chance: u32) -> [f64; 4] {
        let d = self.n * self.squares - self.sum * self.sum;
        let mean = self.sum as f64 / self.n as f64;
        let spread = (d as f64 / form.divisor(self.n) as f64).sqrt();
        let e = f64::from_bits(original::f_erfcinv_bits(quantile_argument(chance.into())));
        [mean, spread, e, mean + (spread * 1.4142135623730951) * e]
    }

    /// The limit alone.
    pub fn limit_at(&self, form: Form, chance: u32) -> f64 {
        self.figures_at(form, chance)[3]
    }
}

pub fn chance_fits(chance: u32) -> bool {
    (1..=LAST_CHANCE).contains(&chance)
}

pub fn count_fits(n: usize) -> bool {
    (2..=MOST_TIMES).contains(&n)
}

pub fn time_fits(time: u32) -> bool {
    (1..=LAST_TIME).contains(&u64::from(time))
}

/// Mean, spread, quantile and limit, or the first refusal that holds.
pub fn limit(form: u32, times: &[u32], chance: u32) -> Result<[f64; 4], u64> {
    let form = Form::of(form).ok_or(2u64)?;
    if !chance_fits(chance) {
        return Err(5);
    }
    if !count_fits(times.len()) || !times.iter().all(|time| time_fits(*time)) {
        return Err(6);
    }
    Ok(Sums::of(times).figures_at(form, chance))
}
