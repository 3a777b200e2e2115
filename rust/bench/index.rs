// Appends that are handed an index beside the plain ones on the same journal, and indexes made afresh beside the scan, in microseconds: the
// least of some turns. Each call finds journal and index as they were.

use crate::merge::least;
use inputs::journal::SMALLEST;
use ours::{Offer, INDEX};
use reference::model::make_index;
use reference::samples::{joined, smallest, two_byte_name};
use reference::scan::MAX_LENGTH;
use std::hint::black_box;

/// The bytes of a record whose name has two.
const SIZE: usize = SMALLEST + 1;

/// How many of them a journal has that leaves room for one more.
const FULL: usize = MAX_LENGTH / SIZE - 1;

pub fn rows() {
    println!();
    println!("| records of 34 bytes | names | plain append, µs | with an index, µs | with / plain | index made, µs | scan, µs |");
    println!("|---|---|---|---|---|---|---|");
    for (records, names) in [
        (FULL / 2, 41),
        (FULL, 41),
        (FULL / 4, FULL),
        (FULL / 2, FULL),
        (FULL, FULL),
    ] {
        row(records, names);
    }
}

/// So many records of so many names, and the append of one more, of a name in the middle of them.
fn row(records: usize, names: usize) {
    let standing: Vec<_> = (0..records)
        .map(|i| smallest(&two_byte_name(i % names)))
        .collect();
    let mut v = joined(&standing);
    let len = v.len();
    v.resize(MAX_LENGTH, 0);
    let mut index = vec![0; 20_000];
    make_index(&v, len, &mut index);
    let right = index.clone();
    let offer = || Offer {
        day: 7,
        name: b"Pp",
        chances: &[1_000],
        times: &[90, 110],
    };
    let times = [0, INDEX].map(|options| {
        1e3 * least(|| {
            index.copy_from_slice(&right);
            let words =
                ours::awaqlla_append_with(&mut v, len, offer(), usize::MAX, &mut index, options);
            assert_eq!(words, [0, (len + SIZE) as u64, 0]);
        })
    });
    let made = 1e3
        * least(|| {
            black_box(ours::awaqlla_index(&v, len, &mut index));
        });
    let scan = 1e3
        * least(|| {
            black_box(ours::awaqlla_scan(&v, len));
        });
    let [plain, with] = times;
    println!(
        "| {records} | {} | {plain:.1} | {with:.1} | {:.2} | {made:.1} | {scan:.1} |",
        names.min(records),
        with / plain
    );
}
