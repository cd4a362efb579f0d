//! Document 01's walk and scope, written down from its words, against the
//! published code.
//!
//! The transcription is no oracle. It shows that the paper, as it is read here,
//! says what the Rust does, over every kind of generated case.

use std::collections::{BTreeMap, BTreeSet};

use oracle::answer::{answer, group_bytes};
use oracle::case::{Case, CaseKind};
use oracle::generate::Generator;
use oracle::reading;
use oracle::records::{
    FlatRuleRecord, GroupRecord, Kind, MarkClass, RuleRecord, SignatureRecord, StatementKind,
    StatementRecord, StructureRecord,
};

/// Letter or member, symbol, elements.
type Row = (StatementKind, u16, Vec<u16>);
type Pair = (u16, u16);
/// The variable of each element.
type ElVars = BTreeMap<u16, u16>;
/// Type and name of each variable.
type Vars = Vec<(u16, Vec<u8>)>;

// ------------------------------------------------------------------ flatten

struct Walk<'a> {
    signature: &'a SignatureRecord,
    rule: &'a RuleRecord,
    maps: BTreeMap<Pair, &'a [Pair]>,
    vars: Vars,
    /// By reached structure.
    el_vars: BTreeMap<u16, ElVars>,
    statements: BTreeMap<u16, Vec<StatementRecord>>,
    rules: Vec<FlatRuleRecord>,
    group_name: Vec<u8>,
}

fn walk(signature: &SignatureRecord, rule: &RuleRecord) -> Result<GroupRecord, u8> {
    let maps = rule.maps.iter();
    let maps = maps.map(|map| ((map.source, map.target), &map.pairs[..]));
    let mut walk = Walk {
        signature,
        rule,
        maps: maps.collect(),
        vars: Vec::new(),
        el_vars: BTreeMap::new(),
        statements: BTreeMap::new(),
        rules: Vec::new(),
        group_name: rule.name.clone(),
    };
    if walk.group_name.is_empty() {
        walk.group_name = format!("anonymous_rule_{}", rule.index).into_bytes();
    }
    let kinds = walk.kinds()?;
    walk.start();
    let mut pairs: Vec<Pair> = kinds.keys().copied().collect();
    pairs.sort_by_key(|&(source, target)| (target, source));
    for pair in pairs {
        walk.map(pair, kinds[&pair])?;
    }
    Ok(GroupRecord {
        name: walk.group_name,
        vars: walk.vars,
        rules: walk.rules,
    })
}

impl Walk<'_> {
    fn structure(&self, number: u16) -> &StructureRecord {
        &self.rule.structures[usize::from(number)]
    }

    fn is_parentless(&self, typ: u16) -> bool {
        self.signature.types[usize::from(typ)].is_empty()
    }

    /// 21 and 22, then the kinds with what X adds.
    fn kinds(&self) -> Result<BTreeMap<Pair, Kind>, u8> {
        let source = |target: u16| {
            let mut into = self.maps.keys().filter(|pair| pair.1 == target);
            into.next().map(|pair| pair.0)
        };
        if self
            .rule
            .marks
            .iter()
            .any(|mark| source(mark.structure).is_none())
        {
            return Err(21);
        }
        let mut kinds: BTreeMap<Pair, Kind> = BTreeMap::new();
        for kind in &self.rule.kinds {
            kinds.insert((kind.source, kind.target), kind.kind);
        }
        if kinds.keys().any(|pair| !self.maps.contains_key(pair)) {
            return Err(22);
        }
        for mark in &self.rule.marks {
            let source = source(mark.structure).ok_or(21)?;
            let kind = match mark.class {
                MarkClass::BranchStart => Kind::Noop,
                MarkClass::AfterScrutinee | MarkClass::CaseStart => Kind::If,
            };
            kinds.entry((source, mark.structure)).or_insert(kind);
        }
        Ok(kinds)
    }

    fn start(&mut self) {
        let (el_vars, vars) = self.with_new_vars(0, BTreeMap::new());
        self.el_vars.insert(0, el_vars);
        self.vars = vars;
        let mut statements: Vec<StatementRecord> = Vec::new();
        for row in self.rows(0) {
            statements.push(self.statement(0, &row));
        }
        for entry in &self.structure(0).els {
            if self.is_parentless(entry.typ) {
                let row = (StatementKind::TypeSet, entry.typ, vec![entry.el]);
                statements.push(self.statement(0, &row));
            }
        }
        self.statements.insert(0, statements);
    }

    /// Elements without a variable get the next numbers. Also all variables.
    fn with_new_vars(&self, structure: u16, mut el_vars: ElVars) -> (ElVars, Vars) {
        let mut vars = self.vars.clone();
        for entry in &self.structure(structure).els {
            el_vars.entry(entry.el).or_insert_with(|| {
                let number = vars.len();
                let mut name = self.base(structure, entry.el);
                name.extend(number.to_string().bytes());
                vars.push((entry.typ, name));
                number as u16
            });
        }
        (el_vars, vars)
    }

    fn base(&self, structure: u16, el: u16) -> Vec<u8> {
        let structure = self.structure(structure);
        let mut vars = structure.vars.iter();
        let mut idents = structure.idents.iter();
        let var = vars.find(|(of, _)| *of == el).map(|(_, name)| name);
        let ident = idents.find(|ident| ident.el == el).map(|ident| &ident.name);
        var.or(ident).cloned().unwrap_or_else(|| b"el".to_vec())
    }

    fn rows(&self, structure: u16) -> Vec<Row> {
        let structure = self.structure(structure);
        let mut rows: Vec<Row> = Vec::new();
        for row in &structure.rows {
            rows.push((StatementKind::Predicate, row.pred, row.els.clone()));
        }
        for app in &structure.apps {
            let els = [&app.els[..], &[app.result]].concat();
            rows.push((StatementKind::Function, app.func, els));
        }
        for entry in &structure.els {
            if !entry.parents.is_empty() {
                let els = [&entry.parents[..], &[entry.el]].concat();
                rows.push((StatementKind::Member, entry.typ, els));
            }
        }
        rows.sort_by_key(|(kind, symbol, els)| (*kind as u8, *symbol, els.clone()));
        rows
    }

    /// The row with the structure's variables.
    fn statement(&self, structure: u16, row: &Row) -> StatementRecord {
        let el_vars = &self.el_vars[&structure];
        StatementRecord {
            kind: row.0,
            symbol: row.1,
            vars: row.2.iter().map(|el| el_vars[el]).collect(),
        }
    }

    fn map(&mut self, (source, target): Pair, kind: Kind) -> Result<(), u8> {
        let passed = self.statements.get(&source).cloned().ok_or(23)?;
        if self.statements.contains_key(&target) {
            return Err(24);
        }
        let pairs = self.maps[&(source, target)];
        let carried = pairs
            .iter()
            .map(|(key, image)| (*image, self.el_vars[&source][key]));
        let (el_vars, vars) = self.with_new_vars(target, carried.collect());
        self.el_vars.insert(target, el_vars);
        self.vars = vars;
        let statements = match kind {
            Kind::If | Kind::Noop => self.if_statements(source, target, passed)?,
            Kind::SurjThen => self.surj_then(source, target, passed)?,
            Kind::NonSurjThen => self.non_surj_then(source, target, passed)?,
        };
        self.statements.insert(target, statements);
        Ok(())
    }

    fn image(&self, pair: Pair) -> BTreeSet<u16> {
        self.maps[&pair].iter().map(|(_, image)| *image).collect()
    }

    /// 25, then an Equality per kernel pair.
    fn equalities(&self, source: u16, target: u16) -> Result<Vec<StatementRecord>, u8> {
        let pairs = self.maps[&(source, target)];
        let mut equalities = Vec::new();
        for image in self.image((source, target)) {
            let keys: Vec<u16> = pairs
                .iter()
                .filter(|pair| pair.1 == image)
                .map(|pair| pair.0)
                .collect();
            for (at, left) in keys.iter().enumerate() {
                for right in &keys[at + 1..] {
                    let el_vars = &self.el_vars[&source];
                    let vars = vec![el_vars[left], el_vars[right]];
                    let types: Vec<u16> = vars
                        .iter()
                        .map(|&var| self.vars[usize::from(var)].0)
                        .collect();
                    if types[0] != types[1] {
                        return Err(25);
                    }
                    equalities.push(StatementRecord {
                        kind: StatementKind::Equality,
                        symbol: types[0],
                        vars,
                    });
                }
            }
        }
        Ok(equalities)
    }

    /// 26, then the target's rows that are no image of a source row.
    fn new_rows(&self, source: u16, target: u16) -> Result<Vec<Row>, u8> {
        let map: BTreeMap<u16, u16> = self.maps[&(source, target)].iter().copied().collect();
        let mut images: Vec<Row> = Vec::new();
        for (kind, symbol, els) in self.rows(source) {
            let els: Option<Vec<u16>> = els.iter().map(|el| map.get(el).copied()).collect();
            images.push((kind, symbol, els.ok_or(26)?));
        }
        let mut rows = self.rows(target);
        rows.retain(|row| !images.contains(row));
        Ok(rows)
    }

    fn constrained(&self, structure: u16) -> BTreeSet<u16> {
        let mut constrained = BTreeSet::new();
        for row in &self.structure(structure).rows {
            let parents = self.signature.preds[usize::from(row.pred)].parents.len();
            constrained.extend(&row.els[parents..]);
        }
        for app in &self.structure(structure).apps {
            let parents = self.signature.funcs[usize::from(app.func)].parents.len();
            constrained.extend(&app.els[parents..]);
            constrained.insert(app.result);
        }
        constrained
    }

    fn if_statements(
        &self,
        source: u16,
        target: u16,
        mut statements: Vec<StatementRecord>,
    ) -> Result<Vec<StatementRecord>, u8> {
        statements.extend(self.equalities(source, target)?);
        let constrained = self.constrained(target);
        for row in self.new_rows(source, target)? {
            let member = row.0 == StatementKind::Member;
            if !(member && row.2.last().is_some_and(|el| constrained.contains(el))) {
                statements.push(self.statement(target, &row));
            }
        }
        let image = self.image((source, target));
        for entry in &self.structure(target).els {
            let free = !image.contains(&entry.el) && !constrained.contains(&entry.el);
            if free && self.is_parentless(entry.typ) {
                let row = (StatementKind::TypeSet, entry.typ, vec![entry.el]);
                statements.push(self.statement(target, &row));
            }
        }
        Ok(statements)
    }

    fn emit(&mut self, premise: &[StatementRecord], conclusion: Vec<StatementRecord>) {
        let mut name = self.group_name.clone();
        name.extend(format!("_{}", self.rules.len()).bytes());
        self.rules.push(FlatRuleRecord {
            name,
            premise: premise.to_vec(),
            conclusion,
        });
    }

    fn surj_then(
        &mut self,
        source: u16,
        target: u16,
        passed: Vec<StatementRecord>,
    ) -> Result<Vec<StatementRecord>, u8> {
        let mut conclusion = self.equalities(source, target)?;
        for row in self.new_rows(source, target)? {
            conclusion.push(self.statement(target, &row));
        }
        let image = self.image((source, target));
        if self
            .structure(target)
            .els
            .iter()
            .any(|entry| !image.contains(&entry.el))
        {
            return Err(27);
        }
        self.emit(&passed, conclusion);
        Ok(passed)
    }

    fn non_surj_then(
        &mut self,
        source: u16,
        target: u16,
        mut passed: Vec<StatementRecord>,
    ) -> Result<Vec<StatementRecord>, u8> {
        let image = self.image((source, target));
        let structure = self.structure(target);
        let els = structure.els.iter().map(|entry| entry.el);
        let new_els: Vec<u16> = els.filter(|el| !image.contains(el)).collect();
        let new_el = match new_els[..] {
            [] => return Ok(passed),
            [new_el] => new_el,
            _ => return Err(28),
        };
        let app = structure
            .apps
            .iter()
            .find(|app| app.result == new_el)
            .ok_or(29)?;
        if app.els.iter().any(|el| !image.contains(el)) {
            return Err(30);
        }
        let domain = (StatementKind::FuncDomain, app.func, app.els.clone());
        let els = [&app.els[..], &[new_el]].concat();
        let function = (StatementKind::Function, app.func, els);
        let (domain, function) = (
            self.statement(target, &domain),
            self.statement(target, &function),
        );
        self.emit(&passed, vec![domain]);
        passed.push(function);
        Ok(passed)
    }
}

fn flatten_line(case: &Case) -> String {
    let signature = SignatureRecord::read(&case.signature);
    let rule = RuleRecord::read(&case.record);
    let group = walk(&signature, &rule).map(|group| group.bytes());
    match group {
        Ok(group) if group.len() > (case.number as usize).min(65_535) => "refused 31".to_string(),
        Ok(group) => format!("ok {}", oracle::answer::hex(&group)),
        Err(number) => format!("refused {number}"),
    }
}

// -------------------------------------------------------------------- scope

fn parents<'a>(signature: &'a SignatureRecord, statement: &StatementRecord) -> &'a [u16] {
    let at = usize::from(statement.symbol);
    match statement.kind {
        StatementKind::Predicate => &signature.preds[at].parents,
        StatementKind::Function | StatementKind::FuncDomain => &signature.funcs[at].parents,
        StatementKind::Member => &signature.types[at],
        StatementKind::Equality | StatementKind::TypeSet => &[],
    }
}

/// Model and owners, nothing for global, or the refusal.
fn scope(
    signature: &SignatureRecord,
    group: &GroupRecord,
    position: u32,
) -> Result<Option<(u16, Vec<u16>)>, u8> {
    let rule = group.rules.get(position as usize).ok_or(41)?;
    let Some(first) = rule.conclusion.first() else {
        return Ok(None);
    };
    let Some(&model) = parents(signature, first).last() else {
        return Ok(None);
    };
    let own_parents = |typ: u16| &signature.types[usize::from(typ)];
    // By name and type.
    let values = |vars: &[u16]| -> Vec<(u16, Vec<u8>)> {
        vars.iter()
            .map(|&var| group.vars[usize::from(var)].clone())
            .collect()
    };
    let count = own_parents(model).len() + 1;
    let numbers = first.vars.get(..count).ok_or(43)?.to_vec();
    let owners = values(&numbers);
    for statement in &rule.conclusion {
        if parents(signature, statement).last() != Some(&model) {
            return Ok(None);
        }
        if values(statement.vars.get(..count).ok_or(43)?) != owners {
            return Ok(None);
        }
    }
    for statement in &rule.premise {
        if statement.kind == StatementKind::Equality {
            return Err(42);
        }
        let Some(&other) = parents(signature, statement).last() else {
            continue;
        };
        let among = own_parents(other).contains(&model) || own_parents(model).contains(&other);
        if other != model && !among {
            return Ok(None);
        }
        let prefix = count.min(own_parents(other).len() + 1);
        if values(statement.vars.get(..prefix).ok_or(43)?) != owners[..prefix] {
            return Ok(None);
        }
    }
    Ok(Some((model, numbers)))
}

fn scope_line(case: &Case) -> String {
    let signature = SignatureRecord::read(&case.signature);
    let group = GroupRecord::read(&case.record);
    match scope(&signature, &group, case.number) {
        Ok(None) => "global".to_string(),
        Ok(Some((model, owners))) => {
            let bytes: Vec<u8> = owners.iter().flat_map(|one| one.to_be_bytes()).collect();
            format!("model {model} owners {}", oracle::answer::hex(&bytes))
        }
        Err(number) => format!("refused {number}"),
    }
}

// --------------------------------------------------------------- comparison

#[test]
fn the_paper_says_what_the_rust_does() {
    let mut generator = Generator::new(7);
    let (mut flattened, mut scoped) = (0, 0);
    for _ in 0..40_000 {
        let case = generator.case();
        let (signature, record) = (&case.signature, &case.record);
        match case.kind {
            CaseKind::Flatten if reading::rule(signature, record).is_ok() => {
                assert_eq!(flatten_line(&case), answer(&case).to_string(), "{case:?}");
                flattened += 1;
            }
            CaseKind::Scope if reading::group(signature, record).is_ok() => {
                assert_eq!(scope_line(&case), answer(&case).to_string(), "{case:?}");
                scoped += 1;
            }
            _ => {}
        }
    }
    assert!(
        flattened > 15_000 && scoped > 7_000,
        "{flattened} and {scoped}"
    );
}

/// The same rule gives the same group in every room that holds it.
#[test]
fn the_room_changes_nothing_but_31() {
    let mut generator = Generator::new(8);
    let mut compared = 0;
    for _ in 0..4_000 {
        let mut case = generator.case();
        if case.kind != CaseKind::Flatten {
            continue;
        }
        let Ok(group) = group_bytes(&case.signature, &case.record) else {
            continue;
        };
        for room in [0, group.len().saturating_sub(1), group.len(), 65_536] {
            case.number = room as u32;
            let fits = room >= group.len() && group.len() <= 65_535;
            let expected = if fits {
                format!("ok {}", oracle::answer::hex(&group))
            } else {
                "refused 31".to_string()
            };
            assert_eq!(answer(&case).to_string(), expected);
            compared += 1;
        }
    }
    assert!(compared > 3_000, "{compared}");
}
