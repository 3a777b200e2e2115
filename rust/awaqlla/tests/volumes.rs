// The wrapper over the sample volumes of data/, against their stored listings, and what it is refused.
// The listings and numbers are the papers' (tools/sample-volumes), not our library's.

use awaqlla::{Kind, Offer, Refused, Volume};
use std::fs;
use std::path::{Path, PathBuf};

fn data() -> PathBuf {
    Path::new(env!("CARGO_MANIFEST_DIR")).join("../../data")
}

fn volume(name: &str) -> Volume {
    Volume::new(&fs::read(data().join(name).with_extension("volume")).unwrap())
}

/// The listing by the records and the scan.
fn listing(volume: &Volume) -> String {
    let lines = volume.records().and_then(|records| {
        Ok((
            records
                .map(|record| record.line() + "\n")
                .collect::<String>(),
            volume.scan(false)?,
        ))
    });
    match lines {
        Ok((lines, state)) => {
            format!(
                "{lines}{} {} {}\n",
                if state.torn { "torn" } else { "whole" },
                state.records,
                state.committed
            )
        }
        Err(refused) => format!("damaged {} {}\n", refused.number, refused.place.unwrap()),
    }
}

fn refused(kind: Kind, number: u64, place: Option<u64>, whose: Option<u64>) -> Refused {
    Refused {
        kind,
        number,
        place,
        whose,
    }
}

#[test]
fn listings() {
    let mut tried = 0;
    for entry in fs::read_dir(data()).unwrap() {
        let path = entry.unwrap().path();
        if path
            .extension()
            .is_some_and(|extension| extension == "volume")
        {
            let volume = Volume::new(&fs::read(&path).unwrap());
            let stored = fs::read_to_string(path.with_extension("listing")).unwrap();
            assert_eq!(listing(&volume), stored, "{}", path.display());
            let lines: String = (0..)
                .map(|i| volume.line(i))
                .take_while(|line| !line.is_empty())
                .collect();
            assert_eq!(lines, stored, "{}", path.display());
            tried += 1;
        }
    }
    assert!(tried >= 29);
}

#[test]
fn parts_are_the_records() {
    let releases = volume("releases");
    let count = releases.records().unwrap().count();
    let joined: Vec<u8> = (0..count)
        .flat_map(|i| releases.part(i).unwrap().to_vec())
        .collect();
    assert_eq!(joined, releases.bytes());
    assert_eq!(
        releases.part(count),
        Err(refused(Kind::Declined, 10, None, None))
    );
}

/// Document 01's example, made by an append of a cut, and of the whole record over it.
#[test]
fn appends() {
    let offer = |day, times| Offer {
        day,
        name: b"A",
        chances: &[500000],
        times,
    };
    let mut made = Volume::new(&[]);
    assert_eq!(made.append_upto(offer(1, &[90, 110]), 20), Ok(20));
    assert_eq!(
        made.scan(false).map(|state| (state.torn, state.records)),
        Ok((true, 0))
    );
    assert_eq!(made.append(offer(1, &[90, 110])), Ok(33));
    assert_eq!(made.append_log(offer(1, &[]), b"A 100\nA 100\n"), Ok(66));
    assert_eq!(
        made.append(offer(0, &[90, 110])),
        Err(refused(Kind::Declined, 3, None, None))
    );
    assert_eq!(
        made.append(offer(1, &[90])),
        Err(refused(Kind::Declined, 6, None, None))
    );
    assert_eq!(
        made.append_log(offer(1, &[]), b"A 100\nA 0\n"),
        Err(refused(Kind::LineRefused, 11, Some(6), None))
    );
    assert_eq!(
        made.append_profile(offer(1, &[90, 110])),
        Err(refused(Kind::Damaged, 19, Some(0), None))
    );
    assert_eq!(
        volume("damaged-limit").append(offer(1, &[90, 110])),
        Err(refused(Kind::Damaged, 7, Some(156), None))
    );
    let line = made
        .records()
        .unwrap()
        .map(|record| record.line())
        .next()
        .unwrap();
    assert_eq!(
        line,
        "A 1 S 4059000000000000 402c48c6001f0ac0 500000:4059000000000000"
    );
}

#[test]
fn numbers() {
    assert_eq!(awaqlla::sqrt(4.0), 2.0);
    assert_eq!(awaqlla::f_erfcinv(1.0), 0.0);
    assert_eq!(awaqlla::f_erfinv(1.0), f64::INFINITY);
    assert_eq!(
        awaqlla::limit(2, &[100, 100], 1).map(|answer| answer.limit),
        Ok(100.0)
    );
    assert_eq!(
        awaqlla::limit(3, &[100, 100], 1),
        Err(refused(Kind::Declined, 2, None, None))
    );
    assert_eq!(awaqlla::band(&[100, 100], 1), Ok((100.0, 100.0)));
    assert_eq!(
        awaqlla::band(&[90, 110], 0),
        Err(refused(Kind::Declined, 18, None, None))
    );
}

#[test]
fn merge_and_trial() {
    let [example, marks] = ["example", "marks"].map(volume);
    assert_eq!(
        example.merge(&marks).map(|merged| merged.bytes().len()),
        Ok(996)
    );
    assert_eq!(
        marks.merge(&volume("torn-first")).err(),
        Some(refused(Kind::InputTorn, 16, None, Some(2)))
    );
    assert_eq!(
        marks.merge(&volume("damaged-limit")).err(),
        Some(refused(Kind::Damaged, 7, Some(156), Some(2)))
    );
    let log = b"A 101\nA 101\nA 100\nB 5\n";
    let tried = example.trial(log, 0).unwrap();
    assert_eq!(
        (tried.links, tried.overs, tried.exceeded),
        (3, vec![2], Some(500000))
    );
    assert_eq!(example.unknown(log), Ok(1));
    assert_eq!(
        example.unknown(b"A 101\nA"),
        Err(refused(Kind::LineRefused, 11, Some(6), None))
    );
    assert_eq!(
        example.trial(log, 1),
        Err(refused(Kind::Declined, 10, None, None))
    );
}
