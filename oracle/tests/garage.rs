//! Every claim that document 01 makes about g1 to g11, asked of the oracle.

use oracle::answer::{answer, flatten, Answer};
use oracle::case::{Case, CaseKind};
use oracle::notation::record;
use oracle::records::{GroupRecord, StatementKind, StatementRecord};
use oracle::stored::garage::*;

const AMPLE: usize = 65_535;

fn flattened(rule: &str, room: usize) -> Result<Vec<u8>, u8> {
    flatten(&record(SIGNATURE), &record(rule), room)
}

fn group(rule: &str) -> GroupRecord {
    GroupRecord::read(&flattened(rule, AMPLE).expect("the example is accepted"))
}

fn statement(kind: StatementKind, symbol: u16, vars: &[u16]) -> StatementRecord {
    StatementRecord {
        kind,
        symbol,
        vars: vars.to_vec(),
    }
}

fn row(left: u16, right: u16) -> StatementRecord {
    statement(StatementKind::Predicate, 0, &[left, right])
}

fn type_set(var: u16) -> StatementRecord {
    statement(StatementKind::TypeSet, 0, &[var])
}

fn equality(left: u16, right: u16) -> StatementRecord {
    statement(StatementKind::Equality, 0, &[left, right])
}

fn var(name: &str) -> (u16, Vec<u8>) {
    (0, name.as_bytes().to_vec())
}

#[test]
fn g1_writes_the_60_bytes() {
    let text = "47000172 57000400007830 57000400007931 550003725F30 42000700000000000001 \
                4200050400000000 4200050400000001 48000700000000010000";
    let digits: String = text.split_whitespace().collect();
    let bytes: Vec<u8> = (0..digits.len() / 2)
        .map(|at| u8::from_str_radix(&digits[2 * at..2 * at + 2], 16).expect("hexadecimal"))
        .collect();
    assert_eq!(bytes.len(), 60);
    assert_eq!(flattened(G1, AMPLE), Ok(bytes.clone()));
    assert_eq!(flattened(G1, 60), Ok(bytes));
}

#[test]
fn g2_lacks_a_byte() {
    assert_eq!(flattened(G1, 59), Err(31));
}

#[test]
fn g3_has_no_type_set_for_the_constrained_element() {
    let group = group(G3);
    assert_eq!(group.vars, [var("x0"), var("y1"), var("el2")]);
    let [rule] = &group.rules[..] else {
        panic!("one rule: {group:?}");
    };
    assert_eq!(
        rule.premise,
        [row(0, 1), type_set(0), type_set(1), row(1, 2)]
    );
    assert_eq!(rule.conclusion, []);
}

#[test]
fn g4_ends_with_the_equality() {
    let first = group(G4);
    assert_eq!(first.rules.len(), 1);
    assert_eq!(first.rules[0].premise.last(), Some(&equality(0, 1)));
    let premise = [row(0, 1), type_set(0), type_set(1), equality(0, 1)];
    assert_eq!(first.rules[0].premise, premise);
    // The element is variable 1: a row on it, added last, lists that.
    let seen = group(G4_SEEN);
    let function = statement(StatementKind::Function, 0, &[1, 1]);
    assert_eq!(seen.vars, [var("x0"), var("y1")]);
    assert_eq!(seen.rules[0].conclusion, [function]);
}

#[test]
fn g5_concludes_the_function_domain() {
    let group = group(G5);
    assert_eq!(group.rules.len(), 1);
    let domain = statement(StatementKind::FuncDomain, 0, &[1]);
    assert_eq!(group.rules[0].conclusion, [domain]);
}

#[test]
fn g6_makes_no_rule_and_the_later_one_has_count_0() {
    assert_eq!(group(G6).rules, []);
    let later = group(G6_LATER);
    assert_eq!(later.rules.len(), 1);
    assert_eq!(later.rules[0].name, b"r_0");
}

#[test]
fn g7_is_28() {
    assert_eq!(flattened(G7, AMPLE), Err(28));
}

#[test]
fn g8_is_23_and_24() {
    assert_eq!(flattened(G8_23, AMPLE), Err(23));
    assert_eq!(flattened(G8_24, AMPLE), Err(24));
}

#[test]
fn g9_lists_three_pairs() {
    let group = group(G9);
    let pairs = [equality(0, 1), equality(0, 2), equality(1, 2)];
    assert_eq!(group.rules[0].conclusion, pairs);
}

#[test]
fn g10_is_the_name_alone() {
    assert_eq!(flattened(G10, AMPLE), Ok(vec![0x47, 0x00, 0x01, 0x72]));
}

#[test]
fn g11_is_empty_and_global() {
    let group = group(G11);
    assert_eq!(group.rules.len(), 1);
    assert_eq!(group.rules[0].premise, []);
    assert_eq!(group.rules[0].conclusion, []);
    let scope = answer(&Case {
        kind: CaseKind::Scope,
        signature: record(SIGNATURE),
        record: group.bytes(),
        number: 0,
    });
    assert_eq!(scope, Answer::Global);
}

#[test]
fn elements_and_names_at_their_limits() {
    let elements = |count: u16| {
        let fields: String = (0..count).map(|el| format!("E {el} 0; ")).collect();
        flattened(&format!("N 0 'r'; S; {fields}"), AMPLE)
    };
    assert_eq!(GroupRecord::read(&elements(64).expect("64")).vars.len(), 64);
    assert_eq!(elements(65), Err(4));
    let name = |length: usize| flattened(&format!("N 0 #97*{length}; S"), AMPLE);
    assert_eq!(name(24).map(|group| group.len()), Ok(27));
    assert_eq!(name(25), Err(8));
}
