//! How long the published `flatten_rule` takes, and it and `infer_scope` ready
//! to be measured beside another.

use std::hint::black_box;
use std::time::{Duration, Instant};

use crate::answer::{answer, Answer};
use crate::case::{Case, CaseKind};
use crate::flat_eqlog::scope::harness::Input as ScopeInput;
use crate::flatten::harness::Input;
use crate::generate::{Aim, Generator};
use crate::records::{GroupRecord, RuleRecord, SignatureRecord};
use crate::text;

const STORED: &str = include_str!("../cases/flatten.txt");
/// How long each set of cases is run.
const LASTING: Duration = Duration::from_millis(1_000);

/// Sets of accepted cases and the line that was measured for each.
pub fn report() -> Result<String, String> {
    let stored = text::read(STORED)?.into_iter().map(|stored| stored.case);
    let mut generator = Generator::new(1);
    let drawn = (0..1_000).map(|_| generator.aimed(Aim::Accepted));
    let lines = [
        line("stored", stored.collect()),
        line("generated, seed 1", drawn.collect()),
    ];
    Ok(lines.concat())
}

/// Refused rules are left out: unwinding is no part of the work.
fn is_accepted(case: &Case) -> bool {
    case.kind == CaseKind::Flatten && matches!(answer(case), Answer::Written(_))
}

fn line(name: &str, mut cases: Vec<Case>) -> String {
    cases.retain(is_accepted);
    let bytes: usize = cases.iter().map(|case| case.record.len()).sum();
    let inputs: Vec<Input> = cases.iter().map(input).collect();
    let nanos = nanos_per_round(&inputs);
    format!(
        "flatten_rule alone, {name}: {} accepted cases, {} rule bytes, {:.0} ns per case, {:.1} ns per byte\n",
        cases.len(),
        bytes,
        nanos / cases.len() as f64,
        nanos / bytes as f64,
    )
}

fn input(case: &Case) -> Input {
    let signature = SignatureRecord::read(&case.signature);
    Input::new(&signature, &RuleRecord::read(&case.record))
}

/// The mean over as many rounds as fit, after one to warm up.
fn nanos_per_round(inputs: &[Input]) -> f64 {
    round(inputs);
    let start = Instant::now();
    let mut rounds = 0;
    while start.elapsed() < LASTING {
        round(inputs);
        rounds += 1;
    }
    start.elapsed().as_nanos() as f64 / f64::from(rounds)
}

fn round(inputs: &[Input]) {
    for input in inputs {
        black_box(black_box(input).run());
    }
}

/// A run of the published `infer_scope` on a rule of a sound group, if there is
/// a rule at the position. What it takes is made beforehand.
pub fn infer_scope(signature: &[u8], group: &[u8], position: usize) -> Option<impl Fn()> {
    let signature = SignatureRecord::read(signature);
    let input = ScopeInput::at(&signature, &GroupRecord::read(group), position)?;
    Some(move || {
        black_box(black_box(&input).run());
    })
}

/// A run of the published `flatten_rule` on an accepted rule. What it takes is
/// made beforehand.
pub fn flatten_rule(signature: &[u8], rule: &[u8]) -> impl Fn() {
    let signature = SignatureRecord::read(signature);
    let input = Input::new(&signature, &RuleRecord::read(rule));
    move || {
        black_box(black_box(&input).run());
    }
}
