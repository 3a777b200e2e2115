// Times our functions beside the Rust's and prints a table in markdown.
// Both sides are called through one driver, on bit patterns, by the C convention, and take turns.

mod guard;
mod index;
mod log;
mod merge;
mod scan;
mod trial;

use inputs::doubles::{low_part, moderate};
use inputs::journal::LARGEST;
use inputs::quantile::{chance, BELOW_ONE, CHANCES, ONE_TO_TWO};
use inputs::random::Random;
use original::steps;
use ours::{number, Offer, Step};
use reference::samples::filling;
use reference::scan::MAX_LENGTH;
use std::cell::RefCell;
use std::hint::black_box;
use std::time::{Duration, Instant};

type OnBits = extern "C" fn(u64) -> u64;
type OnLog = fn(&[u8], &[u8]) -> u64;
type OnPart = fn(&RefCell<Vec<u8>>, usize) -> u64;

/// Calls in a turn; the turns of each side, and how long they go on, at least; the least time of a turn counts. A machine's slow moments of some
/// tens of milliseconds are shorter than a row.
const CALLS: usize = 2_000;
const TURNS: usize = 200;
const ROW: Duration = Duration::from_millis(500);

fn main() {
    let mut random = Random::new(1);
    println!("| | ours, ns | Rust, ns | ours / Rust |");
    println!("|---|---|---|---|");
    quantile_rows(&mut random);
    pair_rows(&mut random);
    let inputs = drawn(|| moderate(&mut random).abs().to_bits());
    print_row(
        "sqrt",
        race(
            [guard::sqrt_bits as OnBits, original::sqrt_bits],
            &inputs,
            call_bits,
        ),
    );
    scan::rows(&mut random);
    append_rows(&mut random);
    log_rows(&mut random);
    merge::rows(&mut random);
    index::rows();
    trial::rows(&mut random);
    guard::rows(&mut random);
}

/// The append of a largest record to journals of rising length, beside the scan of the same journal: what is left is the record's own cost.
/// Each call finds the journal as it was, since the length that it is given stays.
fn append_rows(random: &mut Random) {
    println!();
    println!("| append of 652 bytes to a journal of | append, ns | scan of it, ns | the rest, ns |");
    println!("|---|---|---|---|");
    for len in [0, 16_384, 32_768, 64_000] {
        let mut slice = filling(random, len, |_| LARGEST);
        slice.resize(MAX_LENGTH, 0);
        let journal = RefCell::new(slice);
        let times = race([append_largest as OnPart, scan_part], &[len; 4], |call, len| {
            call(&journal, *len)
        });
        let [append, scan] = times.map(|time| time.as_secs_f64() * 1e9 / 4.0);
        println!("| {len} bytes | {append:.0} | {scan:.0} | {:.0} |", append - scan);
    }
}

/// The reading of logs of a million bytes beside a plain reader of the same lines. Ours is the append of their 128 times of a name, of which
/// no byte is written: what it does besides reading is below a thousandth of the time.
fn log_rows(random: &mut Random) {
    println!();
    println!("| a log with names of | ours, MB/s | Rust, MB/s | ours / Rust, time |");
    println!("|---|---|---|---|");
    for letters in [1, 13, 32] {
        let logs: Vec<Vec<u8>> = (0..4).map(|_| log::drawn(random, letters)).collect();
        let bytes: usize = logs.iter().map(Vec::len).sum();
        let wanted = vec![b'A'; letters];
        let times = race([log_ours as OnLog, log_plain], &logs, |read, v| read(&wanted, v));
        let [ours, rust] = times.map(|time| time.as_secs_f64());
        let [ours_rate, rust_rate] = [ours, rust].map(|time| bytes as f64 / time / 1e6);
        println!("| {letters} bytes | {ours_rate:.1} | {rust_rate:.1} | {:.2} |", ours / rust);
    }
}

/// The number of times of a name.
fn log_ours(name: &[u8], log: &[u8]) -> u64 {
    let offer = Offer {
        day: 0,
        name,
        chances: &[500_000],
        times: &[],
    };
    let answer = ours::awaqlla_append_log_upto(&mut [0; 652], 0, offer, log, 0);
    assert_eq!(answer, [0, 0, 0]);
    log::TIMES as u64
}

fn log_plain(name: &[u8], log: &[u8]) -> u64 {
    let times = log::gather(name, log).expect("a good log");
    assert_eq!(times.len(), log::TIMES);
    times.len() as u64
}

fn append_largest(journal: &RefCell<Vec<u8>>, len: usize) -> u64 {
    let times: [u32; 128] = std::array::from_fn(|i| 1000 + i as u32);
    let offer = Offer {
        day: u16::MAX,
        name: &[b'A'; 32],
        chances: &[1, 10, 100, 1_000, 10_000, 100_000, 250_000, 500_000],
        times: &times,
    };
    let answer = ours::awaqlla_append_upto(&mut journal.borrow_mut(), len, offer, usize::MAX);
    assert_eq!(answer, [0, (len + LARGEST) as u64, 0]);
    answer[1]
}

fn scan_part(journal: &RefCell<Vec<u8>>, len: usize) -> u64 {
    ours::awaqlla_scan(&journal.borrow(), len)[1]
}

fn quantile_rows(random: &mut Random) {
    for range in BELOW_ONE.iter().chain([&ONE_TO_TWO]) {
        let inputs = drawn(|| range.draw(random));
        quantile_row(range.name, &inputs);
    }
    let inputs = drawn(|| chance(random.whole(*CHANCES.start(), *CHANCES.end())));
    quantile_row("chances", &inputs);
}

fn quantile_row(range: &str, inputs: &[u64]) {
    let times = race(
        [guard::f_erfcinv_bits as OnBits, original::f_erfcinv_bits],
        inputs,
        call_bits,
    );
    print_row(&format!("f_erfcinv, {range}"), times);
}

/// The pair operations on three positive pairs of moderate size; an operation reads as many as it takes.
fn pair_rows(random: &mut Random) {
    let inputs = drawn(|| {
        let high: [f64; 3] = std::array::from_fn(|_| moderate(random).abs());
        let low = high.map(|x| low_part(x, random));
        [low[0], high[0], low[1], high[1], low[2], high[2]].map(f64::to_bits)
    });
    let sides = [ours::px_step as Step, steps::px_step];
    macro_rules! rows {
        ($($name:ident)*) => {
            $(print_row(stringify!($name), race(sides, &inputs, |side, input| call_step(side, number::$name, input)));)*
        };
    }
    rows!(dd_quick_mult dd_mul_add dd_div dd_recip dd_fast_sqrt);
}

fn drawn<T>(draw: impl FnMut() -> T) -> Vec<T> {
    std::iter::repeat_with(draw).take(CALLS).collect()
}

/// The least time of a turn of each function; the two take turns over the same inputs.
fn race<F: Copy, I>(sides: [F; 2], inputs: &[I], call: impl Fn(F, &I) -> u64) -> [Duration; 2] {
    let mut least = [Duration::MAX; 2];
    let mut turns = 0;
    let began = Instant::now();
    while turns < TURNS || began.elapsed() < ROW {
        turns += 1;
        for (function, least) in sides.into_iter().zip(&mut least) {
            let function = black_box(function);
            let start = Instant::now();
            for input in inputs {
                black_box(call(function, input));
            }
            *least = start.elapsed().min(*least);
        }
    }
    least
}

fn call_bits(function: OnBits, input: &u64) -> u64 {
    function(*input)
}

fn call_step(side: Step, number: u32, input: &[u64; 6]) -> u64 {
    let mut out = [0; 2];
    side(number, input, &mut out);
    out[0] ^ out[1]
}

fn print_row(name: &str, times: [Duration; 2]) {
    let [ours, rust] = times.map(|time| time.as_secs_f64() * 1e9 / CALLS as f64);
    println!("| {name} | {ours:.1} | {rust:.1} | {:.2} |", ours / rust);
}
