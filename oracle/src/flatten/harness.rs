//! Calls the published `flatten_rule` on records and turns its panics into
//! document 01's refusals 21 to 30.
//!
//! # Variables' numbers
//!
//! A `FlatVar` is a printed name and a type; its number stands only at the end
//! of the name, and a base may end in digits (bases `a1` at 2 and `a` at 12
//! both print `a12`). So the published code runs twice: on the rule as it is,
//! and on the same rule without any V and I name, where each variable prints as
//! `el` and its number. Names are read in `el_base_name` alone, whose answer is
//! printed and never compared, and numbers come from one counter that doesn't
//! look at names. The two runs therefore agree but for the names, statement by
//! statement and argument by argument. The harness asserts that they do, and
//! that each name is what the rule's variable of that number is called.
//!
//! # Which refusal
//!
//! Document 01 asks 21 of all X, then 22 of all K, then 23 to 30 map by map.
//! The Rust panics at the first fault that it meets, in an order of its own:
//! 21 in `flatten_morphisms`, 22 in `assign_el_vars`, which goes over all maps
//! before any statement is made, the others in the walk. Each of the first two
//! functions can panic in that one way only, so calling them first tells 21 and
//! 22. For the others the published walk itself finds the map: it runs on the
//! first walked map alone, on the first two, and so on, until it panics. A
//! shorter run also keeps a later map from altering the variables that an
//! earlier one sees. At that map the Rust's order is document 01's but for 24,
//! which it finds last, so 24 is asked here by a small check of the harness
//! when the panic says 25 to 30.

use std::collections::BTreeMap;

use super::*;
use crate::algebra::populate::from_record::rule_structures;
use crate::algebra::signature::from_record::{func_number, pred_number, signature, type_number};
use crate::grammar_util::Location;
use crate::panics::caught;
use crate::records::{
    FlatRuleRecord, GroupRecord, RuleRecord, SignatureRecord, StatementKind, StatementRecord,
};

/// A part of each panic's message and document 01's number for it. The message
/// of 25, an `assert_eq` on two types, has no words of its own.
const REFUSALS: [(&str, u8); 10] = [
    ("auxiliary structure should have an incoming morphism", 21),
    ("flattened morphism should exist", 22),
    ("missing matching statements for", 23),
    ("flatten traversal should visit each codomain once", 24),
    ("assertion `left == right` failed\n  left: TypeId(", 25),
    ("morphism should be defined on relation arguments", 26),
    ("morphism should be surjective", 27),
    (
        "There should be at most one new element in the codomain",
        28,
    ),
    (
        "new element should be the result of a function application",
        29,
    ),
    ("Arguments to obtain new element should be in image", 30),
];

/// The number of a panic. Any other panic is a fault of the harness, not an
/// answer.
fn refusal(message: &str) -> u8 {
    REFUSALS
        .iter()
        .find_map(|&(part, number)| message.contains(part).then_some(number))
        .unwrap_or_else(|| panic!("unexpected panic of the published code: {message}"))
}

/// A rule in the published types, ready to be run.
pub struct Input {
    ast: Ast,
    module: ModuleId,
    rule_id: RuleDeclId,
    anonymous_index: usize,
    signature: Signature,
    rule: RuleStructures,
    /// Where `flatten` would look rules up; `flatten_rule` doesn't.
    no_rules: BTreeMap<RuleDeclId, RuleStructures>,
}

impl Input {
    pub fn new(signature_record: &SignatureRecord, record: &RuleRecord) -> Self {
        let signature = signature(signature_record);
        let mut ast = Ast::new();
        let nowhere = Location::default();
        let module = ast.push_module(nowhere, Module { decls: Vec::new() });
        let name = (!record.name.is_empty())
            .then(|| record.name.iter().copied().map(char::from).collect());
        let body = Vec::new();
        let rule_id = ast.push_rule_decl(nowhere, RuleDecl { name, body });
        let rule = rule_structures(record, &signature, &mut ast);
        Input {
            ast,
            module,
            rule_id,
            anonymous_index: usize::from(record.index),
            signature,
            rule,
            no_rules: BTreeMap::new(),
        }
    }

    fn ctx(&self) -> FlattenCtx<'_> {
        FlattenCtx::new(&self.ast, self.module, &self.signature, &self.no_rules)
    }

    fn flatten_rule(&self, rule: &RuleStructures) -> FlatRuleGroup {
        flatten_rule(&self.ctx(), self.rule_id, self.anonymous_index, rule)
    }

    fn el_vars(
        &self,
        rule: &RuleStructures,
        morphisms: &[RuleMorphism],
    ) -> BTreeMap<FlatElKey, FlatVar> {
        assign_el_vars(&self.ctx(), rule, morphisms)
    }

    /// One run of the published function, for measuring. The result is only
    /// looked at so far that it can't be left out.
    pub fn run(&self) -> usize {
        self.flatten_rule(&self.rule).rules.len()
    }

    /// The group, or the refusal.
    pub fn flatten(&self) -> Result<GroupRecord, u8> {
        let morphisms = caught(|| flatten_morphisms(&self.rule)).map_err(|text| refusal(&text))?;
        let el_vars =
            caught(|| self.el_vars(&self.rule, &morphisms)).map_err(|text| refusal(&text))?;
        let Ok(group) = caught(|| self.flatten_rule(&self.rule)) else {
            return Err(self.first_refusal(&morphisms));
        };
        let nameless = without_names(&self.rule);
        let numbered = self.flatten_rule(&nameless);
        let numbers = self.el_vars(&nameless, &morphisms);
        let vars = handed_out(&el_vars, &numbers);
        Ok(group_record(&group, &numbered, vars))
    }

    /// The number of the panic with which the published function itself ends
    /// on the whole rule, if it does: the Rust's own order of refusals.
    pub fn published_refusal(&self) -> Option<u8> {
        let result = caught(|| self.flatten_rule(&self.rule));
        result.err().map(|message| refusal(&message))
    }

    /// The refusal at the first walked map at which the published code panics
    /// when no later map is walked.
    fn first_refusal(&self, morphisms: &[RuleMorphism]) -> u8 {
        let mut rule = self.rule.clone();
        rule.morphism_kinds.clear();
        // The marks have given their kinds to `morphisms`.
        rule.branch_block_starts.clear();
        rule.match_after_scrutinee.clear();
        rule.match_case_starts.clear();
        for (at, morphism) in morphisms.iter().enumerate() {
            rule.morphism_kinds
                .insert((morphism.src, morphism.tgt), morphism.kind);
            if let Err(message) = caught(|| self.flatten_rule(&rule)) {
                let number = refusal(&message);
                let late = number > 24 && is_reached(morphism.tgt, &morphisms[..at]);
                return if late { 24 } else { number };
            }
        }
        panic!("the whole walk panics, but no part of it");
    }
}

/// Whether a structure has statements after these maps were walked.
fn is_reached(structure: StructureId, walked: &[RuleMorphism]) -> bool {
    structure == StructureId(0) || walked.iter().any(|morphism| morphism.tgt == structure)
}

fn without_names(rule: &RuleStructures) -> RuleStructures {
    let mut nameless = rule.clone();
    for structure in &mut nameless.cat.structures {
        structure.var_els.clear();
    }
    for terms in &mut nameless.semantic_els {
        terms.clear();
    }
    nameless
}

/// The number of a variable of the run without names.
fn number(var: &FlatVar) -> u16 {
    var.name
        .strip_prefix("el")
        .and_then(|digits| digits.parse().ok())
        .expect("a nameless variable prints as el and its number")
}

/// All variables in number order. Each structure is reached once, so every
/// variable that was handed out is still some element's.
fn handed_out(
    el_vars: &BTreeMap<FlatElKey, FlatVar>,
    numbers: &BTreeMap<FlatElKey, FlatVar>,
) -> Vec<FlatVar> {
    assert!(el_vars.keys().eq(numbers.keys()));
    let mut by_number: BTreeMap<u16, &FlatVar> = BTreeMap::new();
    for (key, var) in el_vars {
        let before = by_number.insert(number(&numbers[key]), var);
        assert!(before.is_none_or(|before| before == var));
    }
    assert!(by_number.keys().copied().eq(0..by_number.len() as u16));
    by_number.into_values().cloned().collect()
}

/// The record of a group, its variables' numbers taken from the run without
/// names.
fn group_record(
    group: &FlatRuleGroup,
    numbered: &FlatRuleGroup,
    vars: Vec<FlatVar>,
) -> GroupRecord {
    assert_eq!(group.rules.len(), numbered.rules.len());
    let rules = group.rules.iter().zip(&numbered.rules);
    GroupRecord {
        name: group.name.as_bytes().to_vec(),
        rules: rules
            .map(|(rule, numbered)| rule_record(rule, numbered, &vars))
            .collect(),
        vars: vars
            .iter()
            .map(|var| (type_number(var.typ), var.name.as_bytes().to_vec()))
            .collect(),
    }
}

fn rule_record(rule: &FlatRule, numbered: &FlatRule, vars: &[FlatVar]) -> FlatRuleRecord {
    assert_eq!(rule.premise.len(), numbered.premise.len());
    assert_eq!(rule.conclusion.len(), numbered.conclusion.len());
    let premise = rule.premise.iter().zip(&numbered.premise);
    let conclusion = rule.conclusion.iter().zip(&numbered.conclusion);
    FlatRuleRecord {
        name: rule.name.as_bytes().to_vec(),
        premise: premise
            .map(|(stmt, numbered)| {
                assert_eq!((&stmt.rel, stmt.age), (&numbered.rel, QueryAge::All));
                let (kind, symbol) = in_rel(&stmt.rel);
                statement(kind, symbol, &stmt.args, &numbered.args, vars)
            })
            .collect(),
        conclusion: conclusion
            .map(|(stmt, numbered)| {
                assert_eq!(stmt.rel, numbered.rel);
                let (kind, symbol) = out_rel(&stmt.rel);
                statement(kind, symbol, &stmt.args, &numbered.args, vars)
            })
            .collect(),
    }
}

fn statement(
    kind: StatementKind,
    symbol: u16,
    args: &[FlatVar],
    numbered: &[FlatVar],
    vars: &[FlatVar],
) -> StatementRecord {
    let numbers: Vec<u16> = numbered.iter().map(number).collect();
    assert!(numbers.iter().map(|&at| &vars[usize::from(at)]).eq(args));
    StatementRecord {
        kind,
        symbol,
        vars: numbers,
    }
}

fn rel(rel: FlatRel) -> (StatementKind, u16) {
    match rel {
        FlatRel::Pred(pred) => (StatementKind::Predicate, pred_number(pred)),
        FlatRel::Func(func) => (StatementKind::Function, func_number(func)),
        FlatRel::ModelMember(typ) => (StatementKind::Member, type_number(typ)),
    }
}

fn in_rel(in_rel: &FlatInRel) -> (StatementKind, u16) {
    match in_rel {
        FlatInRel::Rel(one) => rel(*one),
        FlatInRel::RelWithDiagonals { .. } => panic!("flatten_rule makes no diagonals"),
        FlatInRel::Equality(typ) => (StatementKind::Equality, type_number(*typ)),
        FlatInRel::TypeSet(typ) => (StatementKind::TypeSet, type_number(*typ)),
    }
}

fn out_rel(out_rel: &FlatOutRel) -> (StatementKind, u16) {
    match out_rel {
        FlatOutRel::Rel(one) => rel(*one),
        FlatOutRel::Equality(typ) => (StatementKind::Equality, type_number(*typ)),
        FlatOutRel::FuncDomain(func) => (StatementKind::FuncDomain, func_number(*func)),
    }
}
