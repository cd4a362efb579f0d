//! `compare run SEED COUNT`: every answer of the static library on generated cases against the oracle's.
//! `compare numbers`: every two-byte number as it is printed.
//! `compare bench`: how long reading, scope and flatten take, beside the published `infer_scope` and `flatten_rule`.

mod bench;
mod flattening;
mod library;
mod numbers;
mod records;

use std::collections::BTreeMap;
use std::env;
use std::io::{self, IsTerminal};
use std::process::ExitCode;

use library::ScopeAnswer;
use oracle::answer::{answer, Answer};
use oracle::case::{Case, CaseKind};
use oracle::generate::{Aim, Generator};

/// The library's answer.
fn ours(case: &Case) -> Answer {
    match case.kind {
        CaseKind::ReadRule => verdict(library::check_rule(&case.signature, &case.record)),
        CaseKind::ReadGroup => verdict(library::check_group(&case.signature, &case.record)),
        CaseKind::Scope => scope(case),
        CaseKind::Flatten => flattening::answer(case, case.number as usize),
    }
}

fn verdict(code: u32) -> Answer {
    match code {
        0 => Answer::Sound,
        number => refused(number),
    }
}

pub fn refused(number: u32) -> Answer {
    Answer::Refused(u8::try_from(number).expect("a refusal's number is small"))
}

/// What does not apply has to be 0.
fn scope(case: &Case) -> Answer {
    let position = usize::try_from(case.number).expect("a position is a size");
    let said = library::scope(&case.signature, &case.record, position);
    let nothing = ScopeAnswer::default();
    match said {
        ScopeAnswer {
            refused: 0,
            kind: 1,
            model,
            offset,
            count,
        } => Answer::Model {
            model: u16::try_from(model).expect("a type's number has two bytes"),
            owners: case.record[offset..offset + 2 * count].to_vec(),
        },
        said if said == nothing => Answer::Global,
        ScopeAnswer {
            refused: number, ..
        } => {
            assert_eq!(
                said,
                ScopeAnswer {
                    refused: number,
                    ..nothing
                }
            );
            refused(number)
        }
    }
}

/// Whose group a scope's case asks about.
fn source(case: &Case, aim: Aim) -> &'static str {
    match (case.kind, aim) {
        (CaseKind::Scope, Aim::WrittenGroup) => ", a group that flatten_rule wrote",
        (CaseKind::Scope, Aim::MadeUpGroup) => ", a group made up",
        (CaseKind::Scope, _) => ", a group damaged or at a limit",
        _ => "",
    }
}

/// The case, and where `flatten` answers it with other rooms, the outcomes there; or what differs. A model's owners are compared by
/// their bytes: the oracle's are the first conclusion's leading variables, of which it asserts that `infer_scope` returned their
/// names and types.
fn compared(case: &Case, aim: Aim) -> Result<Vec<String>, String> {
    let said = ours(case);
    let expected = answer(case);
    if said != expected {
        return Err(format!("{said}, and the oracle: {expected}"));
    }
    let letter = case.kind.letter();
    let mut outcomes = vec![format!("{letter} {}{}", said.outcome(), source(case, aim))];
    if case.kind == CaseKind::Flatten {
        outcomes.extend(flattening::in_other_rooms(case, &said)?);
    }
    Ok(outcomes)
}

/// How far a run has come, on a terminal's last line.
fn progress(number: usize, count: usize) {
    if number % 1000 == 0 && io::stderr().is_terminal() {
        eprint!("\rcompare: {number} of {count} cases");
    }
    if number == count && io::stderr().is_terminal() {
        eprintln!();
    }
}

/// Compares `count` generated cases and says how often each outcome occurred.
fn run(seed: u64, count: usize) -> Result<String, String> {
    let mut generator = Generator::new(seed);
    let mut outcomes: BTreeMap<String, usize> = BTreeMap::new();
    for number in 0..count {
        progress(number, count);
        let aim = generator.aim();
        let case = generator.aimed(aim);
        let occurred = compared(&case, aim)
            .map_err(|fault| format!("case {number} of seed {seed}: {case:?}: {fault}"))?;
        for outcome in occurred {
            *outcomes.entry(outcome).or_default() += 1;
        }
    }
    progress(count, count);
    let counts: Vec<String> = outcomes
        .iter()
        .map(|(outcome, count)| format!("{outcome}: {count}"))
        .collect();
    Ok(format!(
        "{count} cases of seed {seed} compared, no difference\n{}\n",
        counts.join("\n")
    ))
}

fn parsed<T: std::str::FromStr>(text: &str) -> Result<T, String> {
    text.parse().map_err(|_| format!("not a number: {text}"))
}

fn main() -> ExitCode {
    let args: Vec<String> = env::args().skip(1).collect();
    let args: Vec<&str> = args.iter().map(String::as_str).collect();
    let result = match args[..] {
        ["run", seed, count] => parsed(seed).and_then(|seed| run(seed, parsed(count)?)),
        ["numbers"] => numbers::run(),
        ["bench"] => bench::report(),
        _ => Err("usage: compare run SEED COUNT | compare numbers | compare bench".into()),
    };
    match result {
        Ok(report) => {
            print!("{report}");
            ExitCode::SUCCESS
        }
        Err(fault) => {
            eprintln!("compare: {fault}");
            ExitCode::FAILURE
        }
    }
}
