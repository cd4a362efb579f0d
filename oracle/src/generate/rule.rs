//! Random rules that `flatten_rule` accepts.
//!
//! Structure 0 is made up. Every later one is either made from an earlier one
//! along a map that suits a kind, or made up and left unreached. While a rule
//! grows, the type of each element's variable is kept, since keys may share an
//! image only if their variables' types agree.

use std::collections::{BTreeMap, BTreeSet};

use super::names::name;
use crate::random::Random;
use crate::records::{
    AppRecord, ElRecord, IdentRecord, Kind, KindRecord, MapRecord, MarkClass, MarkRecord,
    RowRecord, RuleRecord, SignatureRecord, StructureRecord,
};

const RULE_NAME: usize = 24;
const FIELDS: usize = 64;
/// Room left for what is added to a structure that was made from another.
const GROWN: usize = 40;

/// A rule, and what is needed to change it further.
pub struct GrownRule {
    pub record: RuleRecord,
    /// Structures that have statements after the walk.
    pub reached: Vec<u16>,
    /// Of each reached structure, the type of each element's variable.
    pub var_types: BTreeMap<u16, BTreeMap<u16, u16>>,
}

/// How large a rule may become.
#[derive(Clone, Copy)]
pub struct Size {
    pub structures: usize,
    pub els: usize,
    pub rows: usize,
}

impl Size {
    pub fn usual(random: &mut Random) -> Self {
        let structures = match random.below(40) {
            0 => random.range(7, 32),
            1..=4 => 1,
            _ => random.range(2, 6),
        };
        let els = match random.below(30) {
            0 => 30,
            1..=3 => 15,
            4 | 5 => 0,
            _ => random.range(1, 6),
        };
        let rows = random.range(0, 6);
        Size {
            structures,
            els,
            rows,
        }
    }

    /// For cases that are read by eye.
    pub fn small(random: &mut Random) -> Self {
        Size {
            structures: random.range(1, 3),
            els: random.range(0, 3),
            rows: random.range(0, 2),
        }
    }
}

pub fn rule(signature: &SignatureRecord, size: Size, random: &mut Random) -> GrownRule {
    let mut grown = GrownRule {
        record: RuleRecord {
            index: random.number(),
            name: if random.chance(20) {
                Vec::new()
            } else {
                name(RULE_NAME, random)
            },
            ..RuleRecord::default()
        },
        reached: Vec::new(),
        var_types: BTreeMap::new(),
    };
    for at in 0..size.structures {
        if at > 0 && !random.chance(12) {
            grow_along_map(&mut grown, at as u16, signature, random);
            continue;
        }
        let structure = made_up(signature, size, random);
        if at == 0 {
            let types = structure.els.iter().map(|entry| (entry.el, entry.typ));
            grown.var_types.insert(0, types.collect());
            grown.reached.push(0);
        }
        grown.record.structures.push(structure);
    }
    mark_some(&mut grown.record, random);
    add_ignored_maps(&mut grown.record, random);
    sort(&mut grown.record);
    grown
}

/// Document 01's order of maps, kinds and marks.
pub fn sort(record: &mut RuleRecord) {
    record.maps.sort_by_key(|map| (map.source, map.target));
    record.kinds.sort_by_key(|kind| (kind.source, kind.target));
    record.marks.sort_by_key(|mark| mark.class);
}

// ------------------------------------------------------- made-up structures

fn made_up(signature: &SignatureRecord, size: Size, random: &mut Random) -> StructureRecord {
    let mut structure = StructureRecord::default();
    if !signature.types.is_empty() {
        let count = random.range(0, size.els);
        let numbers = element_numbers(count, random);
        let types: Vec<u16> = numbers
            .iter()
            .map(|_| any_type(signature, random))
            .collect();
        structure.els = numbers
            .iter()
            .zip(types)
            .map(|(&el, typ)| ElRecord {
                el,
                typ,
                parents: any_parents(signature, typ, &numbers, random),
            })
            .collect();
    }
    let els = numbers_of(&structure);
    let mut rows = Rows::default();
    rows.add_any(signature, &els, random.range(0, size.rows), random);
    rows.store(&mut structure);
    add_names(&mut structure, random);
    structure
}

fn any_type(signature: &SignatureRecord, random: &mut Random) -> u16 {
    random.below(signature.types.len()) as u16
}

pub fn any_parents(
    signature: &SignatureRecord,
    typ: u16,
    els: &[u16],
    random: &mut Random,
) -> Vec<u16> {
    let count = signature.types[usize::from(typ)].len();
    (0..count).map(|_| *random.pick(els)).collect()
}

/// Distinct ascending numbers: mostly from 0 on, sometimes with gaps.
fn element_numbers(count: usize, random: &mut Random) -> Vec<u16> {
    let mut numbers = BTreeSet::new();
    let spread = *random.pick(&[0, 0, 0, 3, 300]);
    while numbers.len() < count {
        let number = if spread == 0 {
            numbers.len()
        } else {
            random.below(count + spread)
        };
        numbers.insert(number as u16);
    }
    numbers.into_iter().collect()
}

pub fn numbers_of(structure: &StructureRecord) -> Vec<u16> {
    structure.els.iter().map(|entry| entry.el).collect()
}

// --------------------------------------------------------------------- rows

/// R and A fields, in order and each once.
#[derive(Default)]
pub struct Rows {
    rows: BTreeSet<(u16, Vec<u16>)>,
    apps: BTreeMap<(u16, Vec<u16>), u16>,
}

impl Rows {
    pub fn of(structure: &StructureRecord) -> Self {
        let rows = structure.rows.iter();
        let apps = structure.apps.iter();
        Rows {
            rows: rows.map(|row| (row.pred, row.els.clone())).collect(),
            apps: apps
                .map(|app| ((app.func, app.els.clone()), app.result))
                .collect(),
        }
    }

    pub fn add_app(&mut self, func: u16, els: Vec<u16>, result: u16) {
        if self.apps.len() < FIELDS {
            self.apps.entry((func, els)).or_insert(result);
        }
    }

    fn add_row(&mut self, pred: u16, els: Vec<u16>) {
        if self.rows.len() < FIELDS {
            self.rows.insert((pred, els));
        }
    }

    /// Up to `count` rows with any elements.
    fn add_any(
        &mut self,
        signature: &SignatureRecord,
        els: &[u16],
        count: usize,
        random: &mut Random,
    ) {
        for _ in 0..count {
            if random.chance(50) {
                self.add_any_row(signature, els, random);
            } else {
                self.add_any_app(signature, els, random);
            }
        }
    }

    fn add_any_row(&mut self, signature: &SignatureRecord, els: &[u16], random: &mut Random) {
        if signature.preds.is_empty() {
            return;
        }
        let at = random.below(signature.preds.len());
        let columns = signature.preds[at].columns();
        if columns == 0 || !els.is_empty() {
            let row = (0..columns).map(|_| *random.pick(els)).collect();
            self.add_row(at as u16, row);
        }
    }

    fn add_any_app(&mut self, signature: &SignatureRecord, els: &[u16], random: &mut Random) {
        if signature.funcs.is_empty() || els.is_empty() {
            return;
        }
        let at = random.below(signature.funcs.len());
        let columns = signature.funcs[at].domain_columns();
        let row = (0..columns).map(|_| *random.pick(els)).collect();
        let result = *random.pick(els);
        self.add_app(at as u16, row, result);
    }

    /// Leaves only those rows yielding `result` whose elements are all in `image`.
    fn keep_yields_within(&mut self, result: u16, image: &BTreeSet<u16>) {
        self.apps.retain(|(_, els), yielded| {
            *yielded != result || els.iter().all(|el| image.contains(el))
        });
    }

    pub fn store(self, structure: &mut StructureRecord) {
        structure.rows = self
            .rows
            .into_iter()
            .map(|(pred, els)| RowRecord { pred, els })
            .collect();
        structure.apps = self
            .apps
            .into_iter()
            .map(|((func, els), result)| AppRecord { func, els, result })
            .collect();
    }
}

/// Elements that `flatten_rule` asks an image of: those of rows, and members
/// with their parents.
pub fn row_elements(structure: &StructureRecord) -> BTreeSet<u16> {
    let mut used = BTreeSet::new();
    for row in &structure.rows {
        used.extend(&row.els);
    }
    for app in &structure.apps {
        used.extend(&app.els);
        used.insert(app.result);
    }
    for entry in structure
        .els
        .iter()
        .filter(|entry| !entry.parents.is_empty())
    {
        used.extend(&entry.parents);
        used.insert(entry.el);
    }
    used
}

// -------------------------------------------------------------------- names

fn add_names(structure: &mut StructureRecord, random: &mut Random) {
    let els = numbers_of(structure);
    let mut vars = BTreeMap::new();
    let mut idents = BTreeMap::new();
    let most = (els.len() * 3 / 2).min(FIELDS);
    for _ in 0..random.range(0, most) {
        vars.insert(name(RULE_NAME, random), *random.pick(&els));
    }
    for _ in 0..random.range(0, most) {
        let term = random.below(40) as u16;
        idents.insert(term, (*random.pick(&els), name(RULE_NAME, random)));
    }
    structure.vars = vars.into_iter().map(|(name, el)| (el, name)).collect();
    structure.idents = idents
        .into_iter()
        .map(|(term, (el, name))| IdentRecord { term, el, name })
        .collect();
}

// ---------------------------------------------------------- along a map

fn grow_along_map(
    grown: &mut GrownRule,
    target: u16,
    signature: &SignatureRecord,
    random: &mut Random,
) {
    let source = *random.pick(&grown.reached);
    let kind = *random.pick(&Kind::ALL);
    let source_structure = &grown.record.structures[usize::from(source)];
    let types = &grown.var_types[&source];
    let fibers = fibers(source_structure, types, kind, random);
    let numbering = image_numbers(&fibers, random);
    let image: BTreeSet<u16> = numbering.values().copied().collect();

    let structure = grown_structure(source_structure, &numbering, kind, signature, random);
    let mut target_types: BTreeMap<u16, u16> = BTreeMap::new();
    for (key, el) in &numbering {
        // A later key replaces.
        target_types.insert(*el, types[key]);
    }
    for entry in structure
        .els
        .iter()
        .filter(|entry| !image.contains(&entry.el))
    {
        target_types.insert(entry.el, entry.typ);
    }

    grown.record.structures.push(structure);
    grown.record.maps.push(MapRecord {
        source,
        target,
        pairs: numbering.into_iter().collect(),
    });
    grown.record.kinds.push(KindRecord {
        source,
        target,
        kind,
    });
    grown.var_types.insert(target, target_types);
    grown.reached.push(target);
}

/// The keys, each list sharing an image.
fn fibers(
    source: &StructureRecord,
    types: &BTreeMap<u16, u16>,
    kind: Kind,
    random: &mut Random,
) -> Vec<Vec<u16>> {
    let asked = row_elements(source);
    let mergers = *random.pick(&[0, 20, 60]);
    let mut fibers: Vec<Vec<u16>> = Vec::new();
    for el in numbers_of(source) {
        let may_drop = kind == Kind::NonSurjThen || !asked.contains(&el);
        if may_drop && random.chance(10) {
            continue;
        }
        let suits = |fiber: &Vec<u16>| kind == Kind::NonSurjThen || types[&fiber[0]] == types[&el];
        match fibers.iter_mut().find(|fiber| suits(fiber)) {
            Some(fiber) if random.chance(mergers) => fiber.push(el),
            _ => fibers.push(vec![el]),
        }
    }
    random.shuffle(&mut fibers);
    fibers
}

/// The image of each key.
fn image_numbers(fibers: &[Vec<u16>], random: &mut Random) -> BTreeMap<u16, u16> {
    let keep = random.chance(60);
    let numbers = element_numbers(fibers.len(), random);
    let mut images = BTreeMap::new();
    for (fiber, number) in fibers.iter().zip(numbers) {
        let image = if keep { fiber[0] } else { number };
        images.extend(fiber.iter().map(|&key| (key, image)));
    }
    images
}

/// The target along `images`, with new elements where the kind allows them.
fn grown_structure(
    source: &StructureRecord,
    images: &BTreeMap<u16, u16>,
    kind: Kind,
    signature: &SignatureRecord,
    random: &mut Random,
) -> StructureRecord {
    let image: BTreeSet<u16> = images.values().copied().collect();
    let new_els = new_elements(&image, kind, signature, random);
    let all: Vec<u16> = image.iter().chain(&new_els).copied().collect();
    let mut els: BTreeMap<u16, ElRecord> = BTreeMap::new();
    for entry in &source.els {
        if let Some(&el) = images.get(&entry.el) {
            els.entry(el)
                .or_insert_with(|| carried_element(entry, el, images, &all, signature, random));
        }
    }
    for &el in &new_els {
        let typ = any_type(signature, random);
        let parents = any_parents(signature, typ, &all, random);
        els.insert(el, ElRecord { el, typ, parents });
    }
    let mut structure = StructureRecord {
        els: els.into_values().collect(),
        ..StructureRecord::default()
    };
    let mut rows = image_rows(source, images, random);
    let most = if all.len() > GROWN { 0 } else { 3 };
    rows.add_any(signature, &all, random.range(0, most), random);
    if let (Kind::NonSurjThen, [new_el]) = (kind, &new_els[..]) {
        rows.keep_yields_within(*new_el, &image);
        add_yield(&mut rows, *new_el, &image, signature, random);
    }
    rows.store(&mut structure);
    add_names(&mut structure, random);
    structure
}

fn new_elements(
    image: &BTreeSet<u16>,
    kind: Kind,
    signature: &SignatureRecord,
    random: &mut Random,
) -> Vec<u16> {
    let most = match kind {
        _ if signature.types.is_empty() || image.len() > GROWN => 0,
        Kind::If | Kind::Noop => 3,
        Kind::SurjThen => 0,
        Kind::NonSurjThen => usize::from(!yielding(image, signature).is_empty()),
    };
    let count = if kind == Kind::NonSurjThen {
        most * usize::from(random.chance(75))
    } else {
        random.range(0, most)
    };
    // Sometimes below the image's numbers, where there is a gap.
    let low = random.chance(30);
    let first = image.last().map_or(0, |last| last + 1);
    let free = (0..u16::MAX).filter(|el| !image.contains(el) && (low || *el >= first));
    free.take(count).collect()
}

/// Functions that a row over elements of the image can be made of.
fn yielding(image: &BTreeSet<u16>, signature: &SignatureRecord) -> Vec<u16> {
    let funcs = signature.funcs.iter().enumerate();
    funcs
        .filter(|(_, func)| func.domain_columns() == 0 || !image.is_empty())
        .map(|(at, _)| at as u16)
        .collect()
}

fn add_yield(
    rows: &mut Rows,
    new_el: u16,
    image: &BTreeSet<u16>,
    signature: &SignatureRecord,
    random: &mut Random,
) {
    let funcs = yielding(image, signature);
    let image: Vec<u16> = image.iter().copied().collect();
    loop {
        let func = *random.pick(&funcs);
        let columns = signature.funcs[usize::from(func)].domain_columns();
        let els: Vec<u16> = (0..columns).map(|_| *random.pick(&image)).collect();
        // A row that stands there already yields something else: overwrite it.
        rows.apps.insert((func, els), new_el);
        if random.chance(70) {
            return;
        }
    }
}

fn carried_element(
    entry: &ElRecord,
    el: u16,
    images: &BTreeMap<u16, u16>,
    all: &[u16],
    signature: &SignatureRecord,
    random: &mut Random,
) -> ElRecord {
    if random.chance(4) {
        // No one compares a key's type with its image's.
        let typ = any_type(signature, random);
        let parents = any_parents(signature, typ, all, random);
        return ElRecord { el, typ, parents };
    }
    let parents = entry
        .parents
        .iter()
        .map(|parent| images.get(parent).copied());
    let parents = parents.map(|image| image.unwrap_or_else(|| *random.pick(all)));
    ElRecord {
        el,
        typ: entry.typ,
        parents: parents.collect(),
    }
}

/// Images of most source rows.
fn image_rows(source: &StructureRecord, images: &BTreeMap<u16, u16>, random: &mut Random) -> Rows {
    let mut rows = Rows::default();
    let mapped = |els: &[u16]| -> Option<Vec<u16>> {
        els.iter().map(|el| images.get(el).copied()).collect()
    };
    for row in &source.rows {
        if let Some(els) = mapped(&row.els).filter(|_| random.chance(94)) {
            rows.add_row(row.pred, els);
        }
    }
    for app in &source.apps {
        let ends = mapped(&app.els).zip(images.get(&app.result));
        if let Some((els, &result)) = ends.filter(|_| random.chance(94)) {
            rows.add_app(app.func, els, result);
        }
    }
    rows
}

// --------------------------------------------------------- marks and maps

/// Gives some maps their kind by an X instead of a K, and marks some that have
/// a K anyway. Each structure has one map so far, so the mark finds it.
fn mark_some(record: &mut RuleRecord, random: &mut Random) {
    let mut kept = Vec::new();
    for kind in std::mem::take(&mut record.kinds) {
        let class = match kind.kind {
            Kind::Noop => MarkClass::BranchStart,
            _ if random.chance(50) => MarkClass::AfterScrutinee,
            _ => MarkClass::CaseStart,
        };
        let by_mark = matches!(kind.kind, Kind::If | Kind::Noop) && random.chance(40);
        if !by_mark {
            kept.push(kind);
        }
        if by_mark || random.chance(10) {
            let structure = kind.target;
            record.marks.push(MarkRecord { class, structure });
            if random.chance(10) {
                record.marks.push(MarkRecord { class, structure });
            }
        }
    }
    record.kinds = kept;
}

/// Maps that are not walked, since their pair gets no kind.
fn add_ignored_maps(record: &mut RuleRecord, random: &mut Random) {
    let count = record.structures.len();
    for _ in 0..random.range(0, 2) {
        let source = random.below(count) as u16;
        let target = random.below(count) as u16;
        let taken = |map: &MapRecord| (map.source, map.target) == (source, target);
        let marked = |mark: &MarkRecord| mark.structure == target;
        let lower = |map: &MapRecord| map.target == target && map.source > source;
        // It must not become the lowest source of a marked structure.
        let steals = record.marks.iter().any(marked) && record.maps.iter().any(lower);
        if record.maps.iter().any(taken) || steals {
            continue;
        }
        let pairs = any_pairs(record, source, target, random);
        record.maps.push(MapRecord {
            source,
            target,
            pairs,
        });
    }
}

pub fn any_pairs(
    record: &RuleRecord,
    source: u16,
    target: u16,
    random: &mut Random,
) -> Vec<(u16, u16)> {
    let images = numbers_of(&record.structures[usize::from(target)]);
    let mut pairs = Vec::new();
    for key in numbers_of(&record.structures[usize::from(source)]) {
        if !images.is_empty() && random.chance(90) {
            pairs.push((key, *random.pick(&images)));
        }
    }
    pairs
}
