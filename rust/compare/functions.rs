// The listed functions one by one, both parts of every result.
// Inputs are edge doubles, random bits, arguments such as the quantile passes, and mixtures of these.

use crate::options::Options;
use crate::tally::{hex, Tally, Totals};
use inputs::doubles;
use inputs::random::Random;
use original::steps;
use std::ops::Range;

#[macro_use]
#[path = "../functions.rs"]
mod list;

/// A double or a pair, as the number of its places in the input, and the ranges that the list gives.
struct Argument {
    places: usize,
    ranges: Vec<Range<f64>>,
}

struct Function {
    number: u32,
    name: &'static str,
    arguments: Vec<Argument>,
}

macro_rules! places {
    (f64) => {
        1
    };
    (Pair) => {
        2
    };
}

macro_rules! ranges {
    () => {
        vec![]
    };
    ($ranges:expr) => {
        $ranges.to_vec()
    };
}

macro_rules! describe {
    ($($number:literal $name:ident ($($arg:ident: $kind:ident $(in $ranges:expr)?),*) $(if $holds:expr)? => $call:expr;)*) => {
        vec![$(Function {
            number: $number,
            name: stringify!($name),
            arguments: vec![$(Argument { places: places!($kind), ranges: ranges!($($ranges)?) }),*],
        }),*]
    };
}

/// The arguments' bit patterns from the front; what is behind them is not read.
pub type Input = [u64; MOST_PLACES];

const MOST_PLACES: usize = 6;

/// Edge inputs of a function: all of them where they are no more than this, else so many picked at random.
const EDGE_INPUTS: u64 = 200_000;

pub fn compare(options: &Options, totals: &mut Totals) {
    let edges = doubles::edges();
    for function in with_functions!(describe) {
        let mut tally = Tally::new(function.name);
        let mut random = options.random(function.name);
        function.compare_edges(&edges, &mut random, &mut tally);
        for _ in 0..options.times(1_000_000) {
            function.compare_at(&function.passed(&mut random), &mut tally);
            function.compare_at(&function.moderate(&mut random), &mut tally);
            function.compare_at(&function.mixed(&edges, &mut random), &mut tally);
            function.compare_at(&random_bits(&mut random), &mut tally);
        }
        tally.close(totals);
    }
}

impl Function {
    fn places(&self) -> usize {
        self.arguments.iter().map(|argument| argument.places).sum()
    }

    fn compare_at(&self, input: &Input, tally: &mut Tally) {
        tally.take(answers(self.number, input), || hex(&input[..self.places()]));
    }

    /// Every choice of edge doubles for the places, or random choices where there are too many.
    fn compare_edges(&self, edges: &[u64], random: &mut Random, tally: &mut Tally) {
        let base = edges.len() as u64;
        let all = base
            .checked_pow(self.places() as u32)
            .filter(|count| *count <= EDGE_INPUTS);
        for i in 0..all.unwrap_or(EDGE_INPUTS) {
            let input = match all {
                Some(_) => choice(edges, i),
                None => std::array::from_fn(|_| *random.pick(edges)),
            };
            self.compare_at(&input, tally);
        }
    }

    /// Arguments of the size and shape that the quantile passes.
    fn passed(&self, random: &mut Random) -> Input {
        self.shaped(random, |argument, random| {
            if argument.ranges.is_empty() {
                doubles::moderate(random)
            } else {
                let range = random.pick(&argument.ranges);
                doubles::inside(range, random)
            }
        })
    }

    /// Arguments of other sizes, at which other coefficients of the rationals weigh most.
    fn moderate(&self, random: &mut Random) -> Input {
        self.shaped(random, |_, random| doubles::moderate(random))
    }

    /// Arguments with these values, the pairs with low parts that fit their high parts.
    fn shaped(&self, random: &mut Random, value: fn(&Argument, &mut Random) -> f64) -> Input {
        let mut input = [0; MOST_PLACES];
        let mut at = 0;
        for argument in &self.arguments {
            let value = value(argument, random);
            if argument.places == 2 {
                input[at] = doubles::low_part(value, random).to_bits();
            }
            at += argument.places;
            input[at - 1] = value.to_bits();
        }
        input
    }

    /// In each place an edge double, random bits, or what the quantile may pass there.
    fn mixed(&self, edges: &[u64], random: &mut Random) -> Input {
        let mut input = self.passed(random);
        for place in &mut input {
            match random.below(4) {
                0 => *place = *random.pick(edges),
                1 => *place = random.bits(),
                _ => (),
            }
        }
        input
    }
}

/// The i-th choice of edge doubles, i read as a number in base `edges.len()`.
fn choice(edges: &[u64], mut i: u64) -> Input {
    let base = edges.len() as u64;
    std::array::from_fn(|_| {
        let digit = i % base;
        i /= base;
        edges[digit as usize]
    })
}

fn random_bits(random: &mut Random) -> Input {
    std::array::from_fn(|_| random.bits())
}

/// Our result of the function with this number, and the Rust's.
pub fn answers(number: u32, input: &Input) -> [[u64; 2]; 2] {
    let mut sides = [[0; 2]; 2];
    ours::px_step(number, input, &mut sides[0]);
    steps::px_step(number, input, &mut sides[1]);
    sides
}
