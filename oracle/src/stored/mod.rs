//! The stored lists of cases: hand-made ones with titles, then generated ones.

pub mod flatten;
pub mod garage;
pub mod reading;
pub mod scope;

use std::collections::BTreeMap;

use crate::answer::{answer, Answer};
use crate::case::{Case, CaseKind};
use crate::generate::limits::{answered_whole, LIMITS};
use crate::generate::{Generator, AMPLE};
use crate::notation::record;
use crate::outcomes::outcome;
use crate::records::GroupRecord;
use crate::text::{block, Titled};

/// Longest generated case, both parts together.
const READABLE: usize = 240;
/// How many cases are drawn to choose from.
const DRAWN: usize = 10_000;

pub const FLATTEN_HEAD: &str = "\
# Cases of flatten. Answers 21 to 30 and the groups come from the published
# code, 1 to 8 from the second reading, 31 from the harness. See ../README.md.
";

pub const SCOPE_HEAD: &str = "\
# Cases of scope. Answers but 1 to 8 and 41 come from the published code, 1 to 8
# from the second reading, 41 from the harness. See ../README.md.
";

pub const READING_HEAD: &str = "\
# Cases of reading rules and groups. All answers come from the second reading
# of document 01 (src/reading.rs), none from the published code, which knows no
# byte records. See ../README.md.
";

/// A list's text: its head, then the cases with their answers.
pub fn text(head: &str, cases: &[Titled]) -> String {
    let mut text = head.to_string();
    for titled in cases {
        text.push('\n');
        text.push_str(&block(titled));
    }
    text
}

fn titled(
    title: impl Into<String>,
    kind: CaseKind,
    signature: &str,
    text: &str,
    number: u32,
) -> Titled {
    Titled {
        title: title.into(),
        case: Case {
            kind,
            signature: record(signature),
            record: record(text),
            number,
        },
    }
}

// ------------------------------------------------------------------ flatten

pub fn flatten_cases() -> Vec<Titled> {
    let mut cases: Vec<Titled> = garage::EXAMPLES
        .iter()
        .map(|&(title, rule, room)| titled(title, CaseKind::Flatten, garage::SIGNATURE, rule, room))
        .collect();
    cases.extend(flatten::MADE.iter().map(|made| {
        titled(
            made.title,
            CaseKind::Flatten,
            made.signature,
            made.rule,
            AMPLE,
        )
    }));
    let limits = [
        "64 E",
        "24 bytes of an N name",
        "32,768 bytes of signature",
        "32,768 bytes of rule",
        "65,535 bytes of answer",
    ];
    cases.extend(limit_cases(&limits, true));
    let mut generator = Generator::small(4);
    cases.extend(drawn(&mut generator, CaseKind::Flatten, |case, answer| {
        match answer {
            Answer::Written(group) => (statement_kinds(group), 1),
            // One of each is enough of what reading.txt shows.
            Answer::Refused(1..=8) => (outcome(case).to_string(), 1),
            other => (other.outcome(), 5),
        }
    }));
    cases
}

/// Which kinds of statements a group has in premises and conclusions, so that
/// groups of all sorts are kept.
fn statement_kinds(group: &[u8]) -> String {
    let mut kinds: Vec<(bool, u8)> = Vec::new();
    for rule in GroupRecord::read(group).rules {
        kinds.extend(rule.premise.iter().map(|one| (false, one.kind as u8)));
        kinds.extend(rule.conclusion.iter().map(|one| (true, one.kind as u8)));
    }
    kinds.sort_unstable();
    kinds.dedup();
    format!("{kinds:?}")
}

// -------------------------------------------------------------------- scope

pub fn scope_cases() -> Vec<Titled> {
    let mut cases = Vec::new();
    for &(signature, made) in scope::LISTS {
        cases.extend(made.iter().map(|&(title, group, position, _)| {
            titled(title, CaseKind::Scope, signature, group, position)
        }));
    }
    cases.extend(limit_cases(&["2,048 W", "65,535 bytes of group"], true));
    let mut generator = Generator::small(5);
    cases.extend(drawn(
        &mut generator,
        CaseKind::Scope,
        |case, answer| match answer {
            Answer::Global => ("global".to_string(), 16),
            Answer::Model { owners, .. } => (format!("model {}", owners.len()), 8),
            Answer::Refused(1..=8) => (outcome(case).to_string(), 1),
            other => (other.outcome(), 6),
        },
    ));
    cases
}

// ------------------------------------------------------------------ reading

pub fn reading_cases() -> Vec<Titled> {
    let mut cases = Vec::new();
    for &(title, signature, _) in reading::SIGNATURES {
        cases.push(titled(
            title,
            CaseKind::ReadRule,
            signature,
            reading::SOUND_RULE,
            0,
        ));
    }
    for &(title, rule, _) in reading::RULES {
        cases.push(titled(
            title,
            CaseKind::ReadRule,
            reading::SIGNATURE,
            rule,
            0,
        ));
    }
    for &(title, group, _) in reading::GROUPS {
        cases.push(titled(
            title,
            CaseKind::ReadGroup,
            reading::SIGNATURE,
            group,
            0,
        ));
    }
    cases.push(titled(
        "the signature's refusal before the rule's",
        CaseKind::ReadRule,
        "T 9",
        "S",
        0,
    ));
    cases.push(titled(
        "the signature's refusal before the group's",
        CaseKind::ReadGroup,
        "T #0",
        "W",
        0,
    ));
    cases.extend(cut_cases());
    let reading_limits: Vec<&str> = LIMITS
        .iter()
        .map(|limit| limit.title)
        .filter(|title| !title.ends_with("of answer"))
        .collect();
    cases.extend(limit_cases(&reading_limits, false));
    for (seed, kind) in [(6, CaseKind::ReadRule), (7, CaseKind::ReadGroup)] {
        let mut generator = Generator::small(seed);
        cases.extend(drawn(&mut generator, kind, |case, _| {
            (outcome(case).to_string(), 2)
        }));
    }
    cases
}

/// A signature, a rule and a group, each cut at every byte.
fn cut_cases() -> Vec<Titled> {
    let parts = [
        (
            "signature",
            titled(
                "",
                CaseKind::ReadRule,
                reading::CUT_SIGNATURE,
                reading::SOUND_RULE,
                0,
            ),
        ),
        (
            "rule",
            titled(
                "",
                CaseKind::ReadRule,
                reading::SIGNATURE,
                reading::CUT_RULE,
                0,
            ),
        ),
        (
            "group",
            titled(
                "",
                CaseKind::ReadGroup,
                reading::SIGNATURE,
                reading::CUT_GROUP,
                0,
            ),
        ),
    ];
    let mut cases = Vec::new();
    for (word, whole) in parts {
        let length = cut_part(&mut whole.case.clone(), word).len();
        for at in 0..=length {
            let mut case = whole.case.clone();
            cut_part(&mut case, word).truncate(at);
            let title = format!("the {word} cut at byte {at} of {length}");
            cases.push(Titled { title, case });
        }
    }
    cases
}

fn cut_part<'a>(case: &'a mut Case, word: &str) -> &'a mut Vec<u8> {
    if word == "signature" {
        &mut case.signature
    } else {
        &mut case.record
    }
}

/// The named limits, at the limit and one past it.
fn limit_cases(titles: &[&str], whole: bool) -> Vec<Titled> {
    let mut cases = Vec::new();
    for limit in LIMITS.iter().filter(|limit| titles.contains(&limit.title)) {
        // A sound rule of the full length is nothing to read by eye.
        let too_long = limit.title == "32,768 bytes of rule";
        // Nor is a group of 65,535 bytes; one more is refused.
        let first = usize::from(limit.title == "65,535 bytes of answer");
        for past in first..=1 {
            let case = if too_long {
                long_rule(past)
            } else {
                (limit.case)(past)
            };
            let case = match case.kind {
                CaseKind::ReadRule | CaseKind::ReadGroup if whole => answered_whole(case),
                _ => case,
            };
            let place = ["at the limit", "one past the limit"][past];
            let title = format!("{}: {place}", limit.title);
            cases.push(Titled { title, case });
        }
    }
    cases
}

/// 32,768 bytes, and one more if past, of which the 33rd S is the first fault.
fn long_rule(past: usize) -> Case {
    let name = ["N 0 'rrr'", "N 0 'rrrr'"][past];
    let mut case = titled("", CaseKind::ReadRule, reading::SIGNATURE, name, 0).case;
    case.record.extend(record("S").repeat(10_920));
    case
}

// ---------------------------------------------------------------- generated

/// Draws cases and keeps the readable ones of a kind, of each sort as many as
/// its quota says.
fn drawn(
    generator: &mut Generator,
    kind: CaseKind,
    sort_and_quota: impl Fn(&Case, &Answer) -> (String, usize),
) -> Vec<Titled> {
    let mut kept: BTreeMap<String, usize> = BTreeMap::new();
    let mut cases = Vec::new();
    for _ in 0..DRAWN {
        let case = generator.case();
        if case.kind != kind || case.signature.len() + case.record.len() > READABLE {
            continue;
        }
        let (sort, quota) = sort_and_quota(&case, &answer(&case));
        let count = kept.entry(sort).or_insert(0);
        if *count < quota {
            *count += 1;
            cases.push((
                outcome(&case),
                Titled {
                    title: String::new(),
                    case,
                },
            ));
        }
    }
    // By outcome, in the order in which they were drawn.
    cases.sort_by(|(one, _), (other, _)| one.cmp(other));
    cases.into_iter().map(|(_, titled)| titled).collect()
}
