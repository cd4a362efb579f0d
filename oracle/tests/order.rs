//! Where the Rust panics, and in which order it finds faults.

use std::collections::BTreeSet;

use oracle::answer::{answer, published_refusal, Answer};
use oracle::case::CaseKind;
use oracle::generate::Generator;
use oracle::notation::record;
use oracle::stored::flatten::MADE;

/// Document 01: 'On this domain 21 to 30 occur just where the Rust panics.' The
/// numbers are the Rust's too, but for 24, which it finds after 25 to 30.
#[test]
fn refusals_are_panics_and_only_24_moves() {
    let mut generator = Generator::new(99);
    let mut found_late = BTreeSet::new();
    let mut compared = 0;
    for _ in 0..60_000 {
        let case = generator.case();
        let refusal = match answer(&case) {
            _ if case.kind != CaseKind::Flatten => continue,
            Answer::Refused(1..=8) => continue,
            Answer::Refused(number) if number != 31 => Some(number),
            _ => None,
        };
        let published = published_refusal(&case.signature, &case.record);
        compared += 1;
        if refusal != published {
            let late = published.expect("a refused rule makes the Rust panic");
            assert_eq!(refusal, Some(24), "{case:?}");
            found_late.insert(late);
        }
    }
    assert!(compared > 20_000, "only {compared} rules compared");
    assert_eq!(found_late, BTreeSet::from([25, 26, 27, 28, 29, 30]));
}

/// The smallest inputs of DIFFERENCES.md.
#[test]
fn the_place_of_24_by_hand() {
    for late in 25..=30 {
        let title = format!("24 before {late} at one map");
        let made = MADE.iter().find(|made| made.title == title);
        let made = made.unwrap_or_else(|| panic!("no case {title}"));
        assert_eq!(made.refusal, 24);
        let published = published_refusal(&record(made.signature), &record(made.rule));
        assert_eq!(published, Some(late), "{title}");
    }
}
