//! The hand-made cases get the answers that document 01 asks for.

use oracle::answer::{answer, flatten, Answer};
use oracle::case::{Case, CaseKind};
use oracle::generate::limits::LIMITS;
use oracle::notation::record;
use oracle::reading;
use oracle::stored::{flatten as flatten_list, reading as reading_list, scope as scope_list};

/// A refusal's number, 0 for none.
fn number<T>(result: Result<T, u8>) -> u8 {
    result.err().unwrap_or(0)
}

#[test]
fn signatures() {
    for &(title, signature, expected) in reading_list::SIGNATURES {
        let bytes = record(signature);
        assert_eq!(number(reading::signature(&bytes)), expected, "{title}");
        let rule = record(reading_list::SOUND_RULE);
        assert_eq!(number(reading::rule(&bytes, &rule)), expected, "{title}");
        let group = record(reading_list::SOUND_GROUP);
        assert_eq!(number(reading::group(&bytes, &group)), expected, "{title}");
    }
}

#[test]
fn rules() {
    let signature = record(reading_list::SIGNATURE);
    for &(title, rule, expected) in reading_list::RULES {
        let refusal = number(reading::rule(&signature, &record(rule)));
        assert_eq!(refusal, expected, "{title}");
    }
}

#[test]
fn groups() {
    let signature = record(reading_list::SIGNATURE);
    for &(title, group, expected) in reading_list::GROUPS {
        let refusal = number(reading::group(&signature, &record(group)));
        assert_eq!(refusal, expected, "{title}");
    }
}

#[test]
fn flattened_rules() {
    for made in flatten_list::MADE {
        let answer = flatten(&record(made.signature), &record(made.rule), 65_535);
        assert_eq!(number(answer), made.refusal, "{}", made.title);
    }
}

#[test]
fn scopes() {
    for &(signature, made) in scope_list::LISTS {
        for &(title, group, position, expected) in made {
            let answer = answer(&Case {
                kind: CaseKind::Scope,
                signature: record(signature),
                record: record(group),
                number: position,
            });
            assert_eq!(answer.to_string(), expected, "{title}");
        }
    }
}

/// A rule's 1 comes behind all of the signature's refusals.
#[test]
fn the_signature_comes_first() {
    let long = vec![0; 32_769];
    assert_eq!(reading::rule(&record("T 9"), &long), Err(5));
    assert_eq!(reading::rule(&record("T"), &long), Err(1));
    assert_eq!(reading::group(&record("T 9"), &[0; 65_536]), Err(5));
    assert_eq!(reading::group(&record("T"), &[0; 65_536]), Err(1));
}

/// A room above 65,535 is used up to there only.
#[test]
fn the_room_is_capped() {
    let limit = LIMITS
        .iter()
        .find(|limit| limit.title == "65,535 bytes of answer");
    let limit = limit.expect("the limit is listed");
    let at_limit = (limit.case)(0);
    assert_eq!(at_limit.number, 65_536);
    let Answer::Written(group) = answer(&at_limit) else {
        panic!("65,535 bytes fit");
    };
    assert_eq!(group.len(), 65_535);
    let smaller = Case {
        number: 65_534,
        ..at_limit
    };
    assert_eq!(answer(&smaller), Answer::Refused(31));
    let past = (limit.case)(1);
    assert_eq!(past.number, 65_536);
    assert_eq!(answer(&past), Answer::Refused(31));
}

/// At each limit a record is sound but where another rule forbids it, and one
/// past the limit it is refused with that limit's number.
#[test]
fn limits_and_one_past() {
    for limit in LIMITS
        .iter()
        .filter(|limit| !limit.title.ends_with("of answer"))
    {
        let bytes = limit.title.contains("bytes of");
        let name = limit.title.ends_with("name");
        let refusal = match (bytes, name) {
            (true, true) => 8,
            (true, false) => 1,
            _ => 4,
        };
        // No sound signature is that long.
        let sound = if limit.title.contains("bytes of signature") {
            Answer::Refused(2)
        } else {
            Answer::Sound
        };
        assert_eq!(answer(&(limit.case)(0)), sound, "{}", limit.title);
        assert_eq!(
            answer(&(limit.case)(1)),
            Answer::Refused(refusal),
            "{}",
            limit.title
        );
    }
}
