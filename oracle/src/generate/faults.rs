//! Changes that make `flatten_rule` refuse an accepted rule.
//!
//! Each change aims at one of 21 to 30 and leaves the record sound. What the
//! rule is then refused with is for the oracle to say: an earlier map may have
//! a fault already, or the change may find nothing to work on.

use super::rule::{any_pairs, any_parents, numbers_of, row_elements, sort, GrownRule, Rows};
use crate::random::Random;
use crate::records::{
    ElRecord, Kind, KindRecord, MapRecord, MarkClass, MarkRecord, RuleRecord, SignatureRecord,
    StructureRecord,
};

/// Limits of document 01, so that a change doesn't pass one.
const FIELDS: usize = 64;
const STRUCTURES: usize = 32;

/// The refusals that a rule can be changed towards.
pub const AIMS: [u8; 10] = [21, 22, 23, 24, 25, 26, 27, 28, 29, 30];

/// Changes the rule towards the refusal `aim`.
pub fn aim_at(aim: u8, grown: &mut GrownRule, signature: &SignatureRecord, random: &mut Random) {
    let mut change = Change {
        grown,
        signature,
        random,
    };
    // Nothing to do where the rule has no place for the fault.
    let _ = match aim {
        21 => change.mark_without_map(),
        22 => change.kind_without_map(),
        23 => change.map_from_unreached(),
        24 => change.second_way_in(),
        25 => change.unlike_kernel_pair(),
        26 => change.row_without_image(),
        27 => change.new_elements(Kind::SurjThen, 1),
        28 => change.new_elements(Kind::NonSurjThen, 2),
        29 => change.new_elements(Kind::NonSurjThen, 1),
        _ => change.yield_from_outside(),
    };
    sort(&mut change.grown.record);
}

struct Change<'a> {
    grown: &'a mut GrownRule,
    signature: &'a SignatureRecord,
    random: &'a mut Random,
}

const ASKING_KINDS: [Kind; 3] = [Kind::If, Kind::SurjThen, Kind::Noop];

impl Change<'_> {
    fn record(&mut self) -> &mut RuleRecord {
        &mut self.grown.record
    }

    fn structures(&self) -> u16 {
        self.grown.record.structures.len() as u16
    }

    fn any_structure(&mut self) -> u16 {
        let count = usize::from(self.structures());
        self.random.below(count) as u16
    }

    fn structure(&mut self, number: u16) -> &mut StructureRecord {
        &mut self.grown.record.structures[usize::from(number)]
    }

    fn has_map(&self, source: u16, target: u16) -> bool {
        let mut maps = self.grown.record.maps.iter();
        maps.any(|map| (map.source, map.target) == (source, target))
    }

    fn add_kind(&mut self, source: u16, target: u16, kind: Kind) {
        let kinds = &mut self.grown.record.kinds;
        let stands = |one: &KindRecord| (one.source, one.target) == (source, target);
        if let Some(one) = kinds.iter_mut().find(|one| stands(one)) {
            one.kind = kind;
        } else if kinds.len() < FIELDS {
            kinds.push(KindRecord {
                source,
                target,
                kind,
            });
        }
    }

    /// A map with any pairs, unless there is one already.
    fn add_map(&mut self, source: u16, target: u16) {
        if !self.has_map(source, target) && self.grown.record.maps.len() < FIELDS {
            let pairs = any_pairs(&self.grown.record, source, target, self.random);
            self.record().maps.push(MapRecord {
                source,
                target,
                pairs,
            });
        }
    }

    fn add_structure(&mut self) -> Option<u16> {
        let number = self.structures();
        if usize::from(number) == STRUCTURES {
            return None;
        }
        let copied = self.any_structure();
        let copy = self.structure(copied).clone();
        self.record().structures.push(copy);
        Some(number)
    }

    /// The position of a forward map out of a reached structure, which gets one
    /// of the kinds.
    fn walked_map(&mut self, kinds: &[Kind]) -> Option<usize> {
        let kind = *self.random.pick(kinds);
        let reached = self.grown.reached.clone();
        let maps = self.grown.record.maps.iter().enumerate();
        let candidates: Vec<usize> = maps
            .filter(|(_, map)| reached.contains(&map.source) && map.source < map.target)
            .map(|(at, _)| at)
            .collect();
        let at = self.random.any(&candidates)?;
        let map = &self.grown.record.maps[at];
        let (source, target) = (map.source, map.target);
        self.add_kind(source, target, kind);
        Some(at)
    }

    fn mark_without_map(&mut self) -> Option<()> {
        let structure = match self.random.below(2) {
            0 => self.add_structure()?,
            _ => self.any_structure(),
        };
        let class = *self.random.pick(&MarkClass::ALL);
        if self.grown.record.marks.len() < FIELDS {
            self.record().marks.push(MarkRecord { class, structure });
        }
        Some(())
    }

    fn kind_without_map(&mut self) -> Option<()> {
        let (source, target) = (self.any_structure(), self.any_structure());
        let kind = *self.random.pick(&Kind::ALL);
        if !self.has_map(source, target) {
            self.add_kind(source, target, kind);
        }
        Some(())
    }

    fn map_from_unreached(&mut self) -> Option<()> {
        let source = match self.random.below(3) {
            // Reached later than its own target, or not at all.
            0 => self.any_structure(),
            _ => self.add_structure()?,
        };
        let target = match self.random.below(3) {
            0 => source,
            1 => self.any_structure(),
            _ => self.add_structure()?,
        };
        let kind = *self.random.pick(&Kind::ALL);
        self.add_map(source, target);
        self.add_kind(source, target, kind);
        Some(())
    }

    fn second_way_in(&mut self) -> Option<()> {
        let source = *self.random.pick(&self.grown.reached);
        let target = match self.random.below(4) {
            0 => source,
            1 => 0,
            _ => *self.random.pick(&self.grown.reached),
        };
        let kind = *self.random.pick(&Kind::ALL);
        self.add_map(source, target);
        self.add_kind(source, target, kind);
        Some(())
    }

    /// Sends two keys of different types to one image.
    fn unlike_kernel_pair(&mut self) -> Option<()> {
        let at = self.walked_map(&ASKING_KINDS)?;
        let source = self.grown.record.maps[at].source;
        let types = self.grown.var_types.get(&source)?.clone();
        let pairs = &mut self.grown.record.maps[at].pairs;
        let (first, image) = *pairs.first()?;
        let other = pairs
            .iter_mut()
            .find(|(key, _)| types.get(key) != types.get(&first))?;
        other.1 = image;
        Some(())
    }

    fn row_without_image(&mut self) -> Option<()> {
        let at = self.walked_map(&ASKING_KINDS)?;
        let source = self.grown.record.maps[at].source;
        let asked = row_elements(self.structure(source));
        let asked: Vec<u16> = asked.into_iter().collect();
        let el = self.random.any(&asked)?;
        self.record().maps[at].pairs.retain(|(key, _)| *key != el);
        Some(())
    }

    /// Adds elements to a walked map's target.
    fn new_elements(&mut self, kind: Kind, count: usize) -> Option<()> {
        let at = self.walked_map(&[kind])?;
        let target = self.grown.record.maps[at].target;
        for _ in 0..count {
            self.new_element(target)?;
        }
        Some(())
    }

    fn new_element(&mut self, target: u16) -> Option<u16> {
        if self.signature.types.is_empty() || self.structure(target).els.len() >= FIELDS {
            return None;
        }
        let mut els = numbers_of(self.structure(target));
        let el = els.last().map_or(Some(0), |last| last.checked_add(1))?;
        els.push(el);
        let typ = self.random.below(self.signature.types.len()) as u16;
        let parents = any_parents(self.signature, typ, &els, self.random);
        self.structure(target)
            .els
            .push(ElRecord { el, typ, parents });
        Some(el)
    }

    /// A new element that is itself among the elements of the row yielding it.
    fn yield_from_outside(&mut self) -> Option<()> {
        let at = self.walked_map(&[Kind::NonSurjThen])?;
        let target = self.grown.record.maps[at].target;
        let pairs = self.grown.record.maps[at].pairs.clone();
        let els = numbers_of(self.structure(target));
        let outside = |el: &u16| pairs.iter().all(|(_, image)| image != el);
        let stands = els.iter().copied().find(outside);
        let el = match stands {
            Some(el) => el,
            None => self.new_element(target)?,
        };
        let func = self.random.below(self.signature.funcs.len().max(1));
        let columns = self.signature.funcs.get(func)?.domain_columns();
        let mut rows = Rows::of(self.structure(target));
        rows.add_app(func as u16, vec![el; columns], el);
        rows.store(self.structure(target));
        Some(())
    }
}
