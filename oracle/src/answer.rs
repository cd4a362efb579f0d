//! Answers to whole cases.
//!
//! 1 to 8 come from the second reading, 21 to 30, 42 and 43 and all groups and
//! scopes from the published code, 31 and 41 from the harness.

use std::fmt;

use crate::case::{Case, CaseKind};
use crate::flat_eqlog::scope::harness::{scope, Scope};
use crate::flatten::harness::Input;
use crate::reading;
use crate::records::{GroupRecord, RuleRecord, SignatureRecord};

/// Bytes of a buffer that are used at most.
const LONGEST_ANSWER: usize = 65_535;

#[derive(Clone, Debug, PartialEq, Eq)]
pub enum Answer {
    /// R or G: the record is sound.
    Sound,
    /// F: the group.
    Written(Vec<u8>),
    /// S.
    Global,
    /// S: model type, and the bytes that hold the owners.
    Model {
        model: u16,
        owners: Vec<u8>,
    },
    Refused(u8),
}

/// Answers a case of any kind.
pub fn answer(case: &Case) -> Answer {
    let result = match case.kind {
        CaseKind::ReadRule => reading::rule(&case.signature, &case.record).map(|()| Answer::Sound),
        CaseKind::ReadGroup => {
            reading::group(&case.signature, &case.record).map(|()| Answer::Sound)
        }
        CaseKind::Flatten => {
            flatten(&case.signature, &case.record, case.number as usize).map(Answer::Written)
        }
        CaseKind::Scope => scope_of(&case.signature, &case.record, case.number),
    };
    result.unwrap_or_else(Answer::Refused)
}

/// The group's bytes, or the refusal, for a buffer of `room` bytes.
pub fn flatten(signature: &[u8], rule: &[u8], room: usize) -> Result<Vec<u8>, u8> {
    let group = group_bytes(signature, rule)?;
    if group.len() > room.min(LONGEST_ANSWER) {
        return Err(31);
    }
    Ok(group)
}

/// The group's bytes, or the refusal, for a buffer of any size.
pub fn group_bytes(signature: &[u8], rule: &[u8]) -> Result<Vec<u8>, u8> {
    reading::rule(signature, rule)?;
    let signature = SignatureRecord::read(signature);
    let rule = RuleRecord::read(rule);
    Ok(Input::new(&signature, &rule).flatten()?.bytes())
}

/// With which number the published function itself panics on a sound rule, in
/// the Rust's own order of refusals.
pub fn published_refusal(signature: &[u8], rule: &[u8]) -> Option<u8> {
    let signature = SignatureRecord::read(signature);
    Input::new(&signature, &RuleRecord::read(rule)).published_refusal()
}

fn scope_of(signature: &[u8], group: &[u8], position: u32) -> Result<Answer, u8> {
    reading::group(signature, group)?;
    let signature = SignatureRecord::read(signature);
    let group = GroupRecord::read(group);
    Ok(match scope(&signature, &group, position)? {
        Scope::Global => Answer::Global,
        Scope::Model { model, owners } => Answer::Model {
            model,
            owners: owners.iter().flat_map(|one| one.to_be_bytes()).collect(),
        },
    })
}

impl Answer {
    /// The line that `replay` prints. The oracle has no buffer that could be
    /// changed, so an F's line always ends in `kept`.
    pub fn line(&self, kind: CaseKind) -> String {
        match kind {
            CaseKind::Flatten => format!("{self} kept"),
            _ => self.to_string(),
        }
    }

    /// The answer without its bytes, for counting.
    pub fn outcome(&self) -> String {
        match self {
            Answer::Written(_) => "written".to_string(),
            Answer::Model { .. } => "model".to_string(),
            other => other.to_string(),
        }
    }
}

impl fmt::Display for Answer {
    fn fmt(&self, f: &mut fmt::Formatter<'_>) -> fmt::Result {
        match self {
            Answer::Sound => write!(f, "ok"),
            Answer::Written(group) => write!(f, "ok {}", hex(group)),
            Answer::Global => write!(f, "global"),
            Answer::Model { model, owners } => write!(f, "model {model} owners {}", hex(owners)),
            Answer::Refused(number) => write!(f, "refused {number}"),
        }
    }
}

/// Lower-case hexadecimal.
pub fn hex(bytes: &[u8]) -> String {
    bytes.iter().map(|byte| format!("{byte:02x}")).collect()
}
