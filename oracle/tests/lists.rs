//! The stored lists and the generator.

use oracle::answer::{answer, Answer};
use oracle::case::{BadCase, Case, CaseKind, Cases};
use oracle::generate::{Aim, Generator};
use oracle::outcomes::Outcomes;
use oracle::reading;
use oracle::records::{GroupRecord, RuleRecord, SignatureRecord};
use oracle::{desk, stored, text};

const FLATTEN: &str = include_str!("../cases/flatten.txt");
const SCOPE: &str = include_str!("../cases/scope.txt");
const READING: &str = include_str!("../cases/reading.txt");
const DESK: &str = include_str!("../cases/desk.txt");

#[test]
fn stored_lists_are_what_the_program_makes() {
    let lists = [
        (FLATTEN, stored::FLATTEN_HEAD, stored::flatten_cases()),
        (SCOPE, stored::SCOPE_HEAD, stored::scope_cases()),
        (READING, stored::READING_HEAD, stored::reading_cases()),
    ];
    for (text, head, cases) in lists {
        assert!(text == stored::text(head, &cases), "{head}");
    }
    assert!(DESK == desk::text(&desk::cases()), "desk");
}

#[test]
fn stored_answers_hold() {
    for list in [FLATTEN, SCOPE, READING] {
        let cases = text::read(list).expect("the list is readable");
        assert!(cases.len() > 100);
        for stored in cases {
            let line = answer(&stored.case).line(stored.case.kind);
            assert_eq!(stored.answer, Some(line), "{:?}", stored.case);
        }
    }
}

#[test]
fn stored_lists_have_every_outcome() {
    let mut outcomes = Outcomes::default();
    for list in [FLATTEN, SCOPE, READING] {
        for stored in text::read(list).expect("the list is readable") {
            outcomes.count(&stored.case);
        }
    }
    // Reading is stored as R and G, so F and S have few of 1 to 8.
    let missing: Vec<String> = outcomes
        .missing()
        .into_iter()
        .filter(|outcome| !(outcome.starts_with(['F', 'S']) && outcome.contains(" for the ")))
        .collect();
    assert_eq!(missing, [""; 0]);
}

#[test]
fn a_fixed_seed_reaches_every_outcome() {
    let mut generator = Generator::new(1);
    let mut outcomes = Outcomes::default();
    for _ in 0..20_000 {
        outcomes.count(&generator.case());
    }
    assert_eq!(outcomes.missing(), [""; 0], "{outcomes}");
}

#[test]
fn the_seed_alone_decides() {
    let cases = |seed| -> Vec<Case> {
        let mut generator = Generator::new(seed);
        (0..300).map(|_| generator.case()).collect()
    };
    assert_eq!(cases(5), cases(5));
    assert_ne!(cases(5), cases(6));
}

#[test]
fn rules_meant_to_be_accepted_are() {
    let mut generator = Generator::new(2);
    for _ in 0..5_000 {
        let case = generator.aimed(Aim::Accepted);
        let answer = answer(&case);
        assert!(matches!(answer, Answer::Written(_)), "{answer} {case:?}");
    }
}

/// What is read is written back byte for byte, and a written group is sound.
#[test]
fn records_read_back() {
    let mut generator = Generator::new(3);
    for _ in 0..5_000 {
        let case = generator.aimed(Aim::Accepted);
        assert_eq!(
            SignatureRecord::read(&case.signature).bytes(),
            case.signature
        );
        assert_eq!(RuleRecord::read(&case.record).bytes(), case.record);
        if let Answer::Written(group) = answer(&case) {
            assert_eq!(reading::group(&case.signature, &group), Ok(()));
            assert_eq!(GroupRecord::read(&group).bytes(), group);
        }
    }
}

#[test]
fn cases_survive_both_forms() {
    let mut generator = Generator::new(4);
    let cases: Vec<Case> = (0..2_000).map(|_| generator.case()).collect();
    let mut bytes = Vec::new();
    for case in &cases {
        case.write(&mut bytes);
    }
    let back: Result<Vec<Case>, BadCase> = Cases::new(&bytes).collect();
    assert_eq!(back.as_ref(), Ok(&cases));
    for case in cases {
        let title = String::new();
        let block = text::block(&text::Titled {
            title,
            case: case.clone(),
        });
        let read = text::read(&block).expect("a written block is readable");
        assert_eq!(read.len(), 1);
        assert_eq!(read[0].case, case);
    }
}

#[test]
fn bad_cases_end_a_list() {
    let case = Case {
        kind: CaseKind::Flatten,
        signature: vec![1, 2],
        record: vec![3],
        number: 70_000,
    };
    let mut bytes = Vec::new();
    case.write(&mut bytes);
    let capped = Case {
        number: 65_536,
        ..case
    };
    for cut in 1..bytes.len() {
        let read: Vec<_> = Cases::new(&bytes[..cut]).collect();
        assert_eq!(read, [Err(BadCase)], "cut at {cut}");
    }
    bytes.push(b'Q');
    bytes.extend([0; 20]);
    let read: Vec<_> = Cases::new(&bytes).collect();
    assert_eq!(read, [Ok(capped), Err(BadCase)]);
}

/// Bytes of a part past 65,536 are dropped; the part is refused all the same.
#[test]
fn long_parts_are_cut() {
    let case = Case {
        kind: CaseKind::ReadGroup,
        signature: Vec::new(),
        record: vec![b'G'; 70_000],
        number: 0,
    };
    let mut bytes = Vec::new();
    case.write(&mut bytes);
    let read: Vec<_> = Cases::new(&bytes).collect();
    let [Ok(read)] = &read[..] else {
        panic!("one case: {}", read.len());
    };
    assert_eq!(read.record.len(), 65_536);
    assert_eq!(answer(read), Answer::Refused(1));
}
