// Compares our functions with the Rust's, and our journal with rust/reference's, all bits; exit status 1 if any result differs.
// Scale N multiplies the numbers of random inputs; 1, the default, is the gate's size.

mod band;
mod beside;
mod functions;
mod inverse;
mod journal;
mod limit;
mod logarithms;
mod options;
mod order;
mod product;
mod quantile;
mod root;
mod tally;

use options::{Options, USAGE};
use std::process::ExitCode;
use std::thread;
use tally::Totals;

fn main() -> ExitCode {
    let words: Vec<String> = std::env::args().skip(1).collect();
    if words == ["--help"] {
        println!("{USAGE}");
        return ExitCode::SUCCESS;
    }
    let options = match Options::read(words.into_iter()) {
        Ok(options) => options,
        Err(message) => {
            eprintln!("compare: {message}");
            return ExitCode::from(2);
        }
    };
    println!("compare: scale {}, seed {}", options.scale, options.seed);
    // The numbers beside the rest: the two have no input in common, and the lines of their groups come as each group ends.
    let (numbers, rest) = thread::scope(|scope| {
        let numbers = scope.spawn(|| numbers(&options));
        let rest = inverse_and_journal(&options);
        (numbers.join(), rest)
    });
    let (numbers, rest) = match (numbers, rest) {
        (Ok(numbers), Ok(rest)) => (numbers, rest),
        (_, Err(message)) => {
            eprintln!("compare: {message}");
            return ExitCode::from(2);
        }
        (Err(_), _) => return ExitCode::from(2),
    };
    let totals = Totals {
        results: numbers.results + rest.results,
        differ: numbers.differ + rest.differ,
    };
    println!(
        "compare: {} results compared, {} differ",
        totals.results, totals.differ
    );
    if totals.differ > 0 {
        ExitCode::FAILURE
    } else {
        ExitCode::SUCCESS
    }
}

fn numbers(options: &Options) -> Totals {
    let mut totals = Totals::default();
    if options.runs("numbers") {
        functions::compare(options, &mut totals);
        product::compare(options, &mut totals);
        logarithms::compare(&mut totals);
        root::compare(options, &mut totals);
        quantile::compare(options, &mut totals);
        order::compare(&mut totals);
        limit::compare(options, &mut totals);
    }
    totals
}

fn inverse_and_journal(options: &Options) -> Result<Totals, String> {
    let mut totals = Totals::default();
    if options.runs("inverse") {
        inverse::compare(options, &mut totals)?;
        band::compare(options, &mut totals);
    }
    journal::compare(options, &mut totals);
    Ok(totals)
}
