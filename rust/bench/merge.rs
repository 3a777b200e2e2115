// The merge of two journals beside rust/reference's and beside the scans of both, in milliseconds: the least of some turns.
// Where each record has a day of its own a pass is linear; on one day each record of the second is compared with those of the first.

use inputs::journal::{record_of_size, READ, SMALLEST};
use inputs::random::Random;
use reference::limit::Form;
use reference::merge::{merge, Merged};
use reference::record::Record;
use reference::scan::MAX_LENGTH;
use std::hint::black_box;
use std::time::Instant;

const TURNS: usize = 20;

/// How many of the smallest records a full journal has.
const FULL: usize = MAX_LENGTH / SMALLEST;

pub fn rows(random: &mut Random) {
    println!();
    println!("| merge of smallest records | ours, ms | scans of both, ms | Rust, ms |");
    println!("|---|---|---|---|");
    let [rising, other] = [(); 2].map(|()| journal(random, FULL / 2, |i| i as u16));
    let [day, apart] = [(); 2].map(|()| journal(random, FULL / 2, |_| 7));
    let [full, beyond] = [(); 2].map(|()| journal(random, FULL, |_| 7));
    row(
        "half full, a day a record, nothing in common",
        &rising,
        &other,
    );
    row("half full, one day, nothing in common", &day, &apart);
    row("full, one day, with itself", &full, &full);
    row(
        "full, one day, nothing in common: declined 9",
        &full,
        &beyond,
    );
    // Each record of the second is compared with all of the first, up to the last time, in both passes.
    let [most, last] = [5, 0x10005].map(alike);
    let first = [most.repeat(FULL - 1), last.clone()].concat();
    row(
        "full, one day, alike but for the last time, all dropped",
        &first,
        &last.repeat(FULL),
    );
}

/// A record of the smallest size that differs from another such record in no byte before its last time's third.
fn alike(time: u32) -> Vec<u8> {
    Record::new(Form::Sample, 7, b"A", &[1], &[5, time]).bytes()
}

/// So many records of the smallest size, each on its day.
fn journal(random: &mut Random, count: usize, day: impl Fn(usize) -> u16) -> Vec<u8> {
    (0..count)
        .flat_map(|i| {
            let fields = record_of_size(random, day(i), SMALLEST, READ);
            Record::new(
                Form::Sample,
                fields.day,
                &fields.name,
                &fields.chances,
                &fields.times,
            )
            .bytes()
        })
        .collect()
}

fn row(name: &str, a: &[u8], b: &[u8]) {
    let mut out = vec![0; MAX_LENGTH];
    let length = match merge((a, a.len()), (b, b.len()), &mut out) {
        Merged::Length(length) => [0, length as u64, 0, 0],
        _ => [1, 9, 0, 0],
    };
    let ours = least(|| {
        let words = ours::awaqlla_merge((a, a.len()), (b, b.len()), black_box(&mut out));
        assert_eq!(words, length);
    });
    let scans = least(|| {
        black_box(ours::awaqlla_scan(a, a.len()));
        black_box(ours::awaqlla_scan(b, b.len()));
    });
    let rust = least(|| {
        black_box(merge((a, a.len()), (b, b.len()), black_box(&mut out)));
    });
    println!("| {name} | {ours:.2} | {scans:.2} | {rust:.2} |");
}

/// The least time of a turn, in milliseconds.
pub fn least(mut call: impl FnMut()) -> f64 {
    let times = (0..TURNS).map(|_| {
        let start = Instant::now();
        call();
        start.elapsed().as_secs_f64() * 1e3
    });
    times.fold(f64::INFINITY, f64::min)
}
