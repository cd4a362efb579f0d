//! Calls the published `infer_scope` on group records and turns its panics into
//! document 01's 42 and 43. 41, a position without a rule, is the harness's own.

use super::*;
use crate::algebra::signature::from_record::{func_id, pred_id, signature, type_id, type_number};
use crate::flat_eqlog::{FlatIfStmt, FlatThenStmt, FlatVar, QueryAge};
use crate::panics::caught;
use crate::records::{
    FlatRuleRecord, GroupRecord, SignatureRecord, StatementKind, StatementRecord,
};

#[derive(Clone, Debug, PartialEq, Eq)]
pub enum Scope {
    Global,
    /// Model type and owner variables, by number.
    Model {
        model: u16,
        owners: Vec<u16>,
    },
}

/// A rule and its signature as the published function takes them.
pub struct Input {
    signature: Signature,
    rule: FlatRule,
}

impl Input {
    fn new(signature_record: &SignatureRecord, record: &FlatRuleRecord, vars: &[FlatVar]) -> Self {
        Input {
            signature: signature(signature_record),
            rule: flat_rule(record, vars),
        }
    }

    /// The rule at `position`, if there is one.
    pub fn at(
        signature_record: &SignatureRecord,
        group: &GroupRecord,
        position: usize,
    ) -> Option<Self> {
        let record = group.rules.get(position)?;
        Some(Input::new(signature_record, record, &flat_vars(group)))
    }

    /// The published function, and nothing else.
    pub fn run(&self) -> RuleScope {
        infer_scope(&self.rule, &self.signature)
    }
}

/// The scope of the rule at `position`, or the refusal.
pub fn scope(
    signature_record: &SignatureRecord,
    group: &GroupRecord,
    position: u32,
) -> Result<Scope, u8> {
    let position = usize::try_from(position).map_err(|_| 41)?;
    let record = group.rules.get(position).ok_or(41)?;
    let vars = flat_vars(group);
    let input = Input::new(signature_record, record, &vars);
    match caught(|| input.run()).map_err(|text| refusal(&text))? {
        RuleScope::Global => Ok(Scope::Global),
        RuleScope::Model { model, owners } => Ok(Scope::Model {
            model: type_number(model),
            owners: owner_numbers(&owners, record, &vars),
        }),
    }
}

/// The published owners are a clone of the first conclusion's leading
/// arguments, so those are the variables that hold them in the record.
fn owner_numbers(owners: &[FlatVar], record: &FlatRuleRecord, vars: &[FlatVar]) -> Vec<u16> {
    let numbers = &record.conclusion[0].vars[..owners.len()];
    assert!(numbers
        .iter()
        .map(|&at| &vars[usize::from(at)])
        .eq(owners.iter()));
    numbers.to_vec()
}

/// Any other panic is a fault of the harness, not an answer.
fn refusal(message: &str) -> u8 {
    if message.contains("scope follows equality elimination") {
        42
    } else if message.contains("out of range for slice of length") {
        43
    } else {
        panic!("unexpected panic of the published code: {message}")
    }
}

fn flat_vars(group: &GroupRecord) -> Vec<FlatVar> {
    let text = |name: &[u8]| -> String { name.iter().copied().map(char::from).collect() };
    group
        .vars
        .iter()
        .map(|(typ, name)| FlatVar {
            name: text(name).into(),
            typ: type_id(*typ),
        })
        .collect()
}

/// `infer_scope` reads neither the name nor the scope that stands in a rule.
fn flat_rule(record: &FlatRuleRecord, vars: &[FlatVar]) -> FlatRule {
    let args = |statement: &StatementRecord| -> Vec<FlatVar> {
        let numbers = statement.vars.iter();
        numbers.map(|&at| vars[usize::from(at)].clone()).collect()
    };
    FlatRule {
        name: String::new(),
        scope: RuleScope::Global,
        premise: record
            .premise
            .iter()
            .map(|statement| FlatIfStmt {
                rel: in_rel(statement),
                args: args(statement),
                age: QueryAge::All,
            })
            .collect(),
        conclusion: record
            .conclusion
            .iter()
            .map(|statement| FlatThenStmt {
                rel: out_rel(statement),
                args: args(statement),
            })
            .collect(),
    }
}

/// The relation of a statement of kind 0, 1 or 2.
fn rel(statement: &StatementRecord) -> Option<FlatRel> {
    match statement.kind {
        StatementKind::Predicate => Some(FlatRel::Pred(pred_id(statement.symbol))),
        StatementKind::Function => Some(FlatRel::Func(func_id(statement.symbol))),
        StatementKind::Member => Some(FlatRel::ModelMember(type_id(statement.symbol))),
        StatementKind::Equality | StatementKind::TypeSet | StatementKind::FuncDomain => None,
    }
}

fn in_rel(statement: &StatementRecord) -> FlatInRel {
    match (rel(statement), statement.kind) {
        (Some(rel), _) => FlatInRel::Rel(rel),
        (None, StatementKind::Equality) => FlatInRel::Equality(type_id(statement.symbol)),
        (None, StatementKind::TypeSet) => FlatInRel::TypeSet(type_id(statement.symbol)),
        (None, kind) => panic!("{kind:?} in a checked premise"),
    }
}

fn out_rel(statement: &StatementRecord) -> FlatOutRel {
    match (rel(statement), statement.kind) {
        (Some(rel), _) => FlatOutRel::Rel(rel),
        (None, StatementKind::Equality) => FlatOutRel::Equality(type_id(statement.symbol)),
        (None, StatementKind::FuncDomain) => FlatOutRel::FuncDomain(func_id(statement.symbol)),
        (None, kind) => panic!("{kind:?} in a checked conclusion"),
    }
}
