// listing FILE..: the records of each volume, a line each, and its end state; what is refused is said with its number and place.
// cargo run --example listing ../../data/releases.volume

use awaqlla::{Refused, Volume};

fn main() -> Result<(), Box<dyn std::error::Error>> {
    for path in std::env::args().skip(1) {
        match listed(&Volume::new(&std::fs::read(&path)?)) {
            Ok(()) => {}
            Err(refused) => println!("{path}: {refused}"),
        }
    }
    Ok(())
}

fn listed(volume: &Volume) -> Result<(), Refused> {
    for record in volume.records()? {
        println!("{}", record.line());
    }
    let state = volume.scan(false)?;
    println!(
        "{} {} {}",
        if state.torn { "torn" } else { "whole" },
        state.records,
        state.committed
    );
    Ok(())
}
