//! Random sound groups, made up for scope.

use super::names::name;
use crate::random::Random;
use crate::records::{
    FlatRuleRecord, GroupRecord, SignatureRecord, StatementKind, StatementRecord,
};

const GROUP_NAME: usize = 32;

pub fn group(signature: &SignatureRecord, random: &mut Random) -> GroupRecord {
    let vars = variables(signature, random);
    let mut record = GroupRecord {
        name: name(GROUP_NAME, random),
        vars,
        rules: Vec::new(),
    };
    let rules = if random.chance(5) {
        0
    } else {
        random.range(1, 3)
    };
    for _ in 0..rules {
        let rule = Statements::new(signature, &record.vars, random).rule();
        record.rules.push(rule);
    }
    record
}

/// Few names, so that equal ones meet at different numbers, with the same type
/// or another.
fn variables(signature: &SignatureRecord, random: &mut Random) -> Vec<(u16, Vec<u8>)> {
    if signature.types.is_empty() {
        return Vec::new();
    }
    let count = random.range(0, 8);
    let mut vars: Vec<(u16, Vec<u8>)> = Vec::new();
    for _ in 0..count {
        let twin = random.any(&(0..vars.len()).collect::<Vec<_>>());
        let typ = random.below(signature.types.len()) as u16;
        match twin.filter(|_| random.chance(30)) {
            Some(twin) if random.chance(70) => vars.push(vars[twin].clone()),
            Some(twin) => vars.push((typ, vars[twin].1.clone())),
            None => vars.push((typ, name(GROUP_NAME, random))),
        }
    }
    vars
}

/// Makes the statements of one rule, most of them about the same owners.
struct Statements<'a> {
    signature: &'a SignatureRecord,
    vars: &'a [(u16, Vec<u8>)],
    /// Leading variables of most statements.
    owners: Vec<u16>,
    /// The last parent that the conclusions' relations shall have.
    model: Option<u16>,
    random: &'a mut Random,
}

impl<'a> Statements<'a> {
    fn new(
        signature: &'a SignatureRecord,
        vars: &'a [(u16, Vec<u8>)],
        random: &'a mut Random,
    ) -> Self {
        let owners = if vars.is_empty() {
            Vec::new()
        } else {
            (0..9).map(|_| random.below(vars.len()) as u16).collect()
        };
        let models = models(signature);
        let model = random.any(&models);
        Statements {
            signature,
            vars,
            owners,
            model,
            random,
        }
    }

    fn rule(mut self) -> FlatRuleRecord {
        let name = name(GROUP_NAME, self.random);
        let premises = self.random.range(0, 4);
        let conclusions = self.random.range(0, 3);
        FlatRuleRecord {
            name,
            premise: (0..premises).filter_map(|_| self.premise()).collect(),
            conclusion: (0..conclusions).filter_map(|_| self.conclusion()).collect(),
        }
    }

    fn premise(&mut self) -> Option<StatementRecord> {
        let kind = match self.random.below(20) {
            0 => StatementKind::Equality,
            1..=3 => StatementKind::TypeSet,
            4..=9 => StatementKind::Predicate,
            10..=15 => StatementKind::Function,
            _ => StatementKind::Member,
        };
        let any = self.random.chance(40);
        self.statement(kind, any)
    }

    fn conclusion(&mut self) -> Option<StatementRecord> {
        let kind = match self.random.below(20) {
            0 => StatementKind::Equality,
            1..=7 => StatementKind::Predicate,
            8..=11 => StatementKind::Function,
            12..=15 => StatementKind::FuncDomain,
            _ => StatementKind::Member,
        };
        let any = self.random.chance(12);
        self.statement(kind, any)
    }

    /// A statement of this kind, if the signature has a symbol for it: about the
    /// model, or about any.
    fn statement(&mut self, kind: StatementKind, any: bool) -> Option<StatementRecord> {
        let symbols = symbols(self.signature, kind);
        let any = any || matches!(kind, StatementKind::Equality | StatementKind::TypeSet);
        let fitting: Vec<u16> = symbols
            .iter()
            .copied()
            .filter(|&symbol| any || last_parent(self.signature, kind, symbol) == self.model)
            .collect();
        let symbol = self.random.any(&fitting)?;
        let count = columns(self.signature, kind, symbol);
        if count > 0 && self.vars.is_empty() {
            return None;
        }
        Some(StatementRecord {
            kind,
            symbol,
            vars: (0..count).map(|at| self.variable(at)).collect(),
        })
    }

    /// The owner at this column, or a variable equal to it, or any other.
    fn variable(&mut self, column: usize) -> u16 {
        let owner = self.owners[column];
        match self.random.below(20) {
            0 => self.random.below(self.vars.len()) as u16,
            1..=8 => self.twin(owner),
            _ => owner,
        }
    }

    fn twin(&mut self, of: u16) -> u16 {
        let equal = |at: &u16| self.vars[usize::from(*at)] == self.vars[usize::from(of)];
        let twins: Vec<u16> = (0..self.vars.len() as u16).filter(equal).collect();
        *self.random.pick(&twins)
    }
}

/// Types that are the last parent of some relation.
fn models(signature: &SignatureRecord) -> Vec<u16> {
    let mut models: Vec<u16> = Vec::new();
    models.extend(
        signature
            .preds
            .iter()
            .filter_map(|pred| pred.parents.last()),
    );
    models.extend(
        signature
            .funcs
            .iter()
            .filter_map(|func| func.parents.last()),
    );
    models.extend(signature.types.iter().filter_map(|parents| parents.last()));
    models
}

/// The symbols that a statement of this kind can have.
pub fn symbols(signature: &SignatureRecord, kind: StatementKind) -> Vec<u16> {
    let count = match kind {
        StatementKind::Predicate => signature.preds.len(),
        StatementKind::Function | StatementKind::FuncDomain => signature.funcs.len(),
        _ => signature.types.len(),
    };
    let all = 0..count as u16;
    all.filter(|&symbol| {
        kind != StatementKind::Member || !signature.types[usize::from(symbol)].is_empty()
    })
    .collect()
}

fn last_parent(signature: &SignatureRecord, kind: StatementKind, symbol: u16) -> Option<u16> {
    let at = usize::from(symbol);
    match kind {
        StatementKind::Predicate => signature.preds[at].parents.last().copied(),
        StatementKind::Function | StatementKind::FuncDomain => {
            signature.funcs[at].parents.last().copied()
        }
        StatementKind::Member => signature.types[at].last().copied(),
        StatementKind::Equality | StatementKind::TypeSet => None,
    }
}

fn columns(signature: &SignatureRecord, kind: StatementKind, symbol: u16) -> usize {
    let at = usize::from(symbol);
    match kind {
        StatementKind::Predicate => signature.preds[at].columns(),
        StatementKind::Function => signature.funcs[at].domain_columns() + 1,
        StatementKind::FuncDomain => signature.funcs[at].domain_columns(),
        StatementKind::Member => signature.types[at].len() + 1,
        StatementKind::Equality => 2,
        StatementKind::TypeSet => 1,
    }
}
