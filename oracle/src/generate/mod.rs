//! Cases of every kind from a seed.

mod damage;
mod faults;
mod group;
pub mod limits;
mod names;
mod rule;
mod signature;

use crate::answer::flatten;
use crate::case::{Case, CaseKind, MOST};
use crate::random::Random;
use crate::records::{Field, GroupRecord, RuleRecord, SignatureRecord};

use rule::{GrownRule, Size};

/// A room in which every group fits that fits at all.
pub const AMPLE: u32 = 65_535;

/// What a generated case aims at.
#[derive(Clone, Copy, Debug, PartialEq, Eq)]
pub enum Aim {
    Accepted,
    /// One of 21 to 30.
    Refusal(u8),
    /// A room around the group's length.
    Room,
    DamagedRule,
    DamagedGroup,
    /// Scope of a group that `flatten_rule` wrote.
    WrittenGroup,
    MadeUpGroup,
    Limit,
}

pub struct Generator {
    random: Random,
    /// Keep cases short enough to be read by eye.
    small: bool,
}

impl Generator {
    pub fn new(seed: u64) -> Self {
        Generator {
            random: Random::new(seed),
            small: false,
        }
    }

    pub fn small(seed: u64) -> Self {
        Generator {
            random: Random::new(seed),
            small: true,
        }
    }

    pub fn case(&mut self) -> Case {
        let aim = self.aim();
        self.aimed(aim)
    }

    pub fn aim(&mut self) -> Aim {
        match self.random.below(100) {
            0..=20 => Aim::Accepted,
            21..=39 => Aim::Refusal(*self.random.pick(&faults::AIMS)),
            40..=44 => Aim::Room,
            45..=61 => Aim::DamagedRule,
            62..=73 => Aim::DamagedGroup,
            74..=79 => Aim::WrittenGroup,
            80..=96 => Aim::MadeUpGroup,
            _ => Aim::Limit,
        }
    }

    pub fn aimed(&mut self, aim: Aim) -> Case {
        match aim {
            Aim::Accepted => self.accepted(),
            Aim::Refusal(number) => self.refused(number),
            Aim::Room => self.with_room(),
            Aim::DamagedRule => self.damaged_rule(),
            Aim::DamagedGroup => self.damaged_group(),
            Aim::WrittenGroup => self.written_group(),
            Aim::MadeUpGroup => self.made_up_group(),
            Aim::Limit => self.limit(),
        }
    }

    fn size(&mut self) -> Size {
        if self.small {
            Size::small(&mut self.random)
        } else {
            Size::usual(&mut self.random)
        }
    }

    fn rule(&mut self) -> (SignatureRecord, GrownRule) {
        let signature = signature::signature(&mut self.random);
        let size = self.size();
        let grown = rule::rule(&signature, size, &mut self.random);
        (signature, grown)
    }

    fn accepted(&mut self) -> Case {
        let (signature, grown) = self.rule();
        flatten_case(&signature, &grown.record, AMPLE)
    }

    fn refused(&mut self, aim: u8) -> Case {
        let (signature, mut grown) = self.rule();
        faults::aim_at(aim, &mut grown, &signature, &mut self.random);
        if self.random.chance(20) {
            // A second fault, so that the order of refusals is seen.
            let second = *self.random.pick(&faults::AIMS);
            faults::aim_at(second, &mut grown, &signature, &mut self.random);
        }
        flatten_case(&signature, &grown.record, AMPLE)
    }

    fn with_room(&mut self) -> Case {
        let mut case = self.accepted();
        let length = flatten(&case.signature, &case.record, MOST).map_or(0, |group| group.len());
        let length = length as u32;
        case.number = match self.random.below(6) {
            0 => 0,
            1 | 2 => length.saturating_sub(1),
            3 => length,
            4 => MOST as u32,
            _ => self.random.below(length as usize + 20) as u32,
        };
        case
    }

    fn damaged_rule(&mut self) -> Case {
        let (signature, mut grown) = self.rule();
        if self.random.chance(10) {
            let aim = *self.random.pick(&faults::AIMS);
            faults::aim_at(aim, &mut grown, &signature, &mut self.random);
        }
        let mut case = flatten_case(&signature, &grown.record, AMPLE);
        if self.random.chance(50) {
            case.kind = CaseKind::ReadRule;
            case.number = 0;
        }
        self.damage(&mut case, signature.fields(), grown.record.fields());
        case
    }

    fn damaged_group(&mut self) -> Case {
        let signature = signature::signature(&mut self.random);
        let record = group::group(&signature, &mut self.random);
        let mut case = self.scope_case(&signature, &record);
        if self.random.chance(60) {
            case.kind = CaseKind::ReadGroup;
            case.number = 0;
        }
        self.damage(&mut case, signature.fields(), record.fields());
        case
    }

    /// Damages the record, the signature or both; rarely none.
    fn damage(&mut self, case: &mut Case, signature: Vec<Field>, record: Vec<Field>) {
        let which = self.random.below(20);
        if matches!(which, 0..=4) {
            case.signature = damage::damaged(&signature, &mut self.random);
        }
        if matches!(which, 0 | 5..=18) {
            case.record = damage::damaged(&record, &mut self.random);
        }
        case.signature.truncate(MOST);
        case.record.truncate(MOST);
    }

    fn written_group(&mut self) -> Case {
        let case = self.accepted();
        let signature = SignatureRecord::read(&case.signature);
        match flatten(&case.signature, &case.record, MOST) {
            Ok(group) => self.scope_case(&signature, &GroupRecord::read(&group)),
            Err(_) => case,
        }
    }

    fn made_up_group(&mut self) -> Case {
        let signature = signature::signature(&mut self.random);
        let record = group::group(&signature, &mut self.random);
        self.scope_case(&signature, &record)
    }

    fn scope_case(&mut self, signature: &SignatureRecord, group: &GroupRecord) -> Case {
        let rules = group.rules.len();
        let number = match self.random.below(20) {
            0 => rules as u32,
            1 => *self.random.pick(&[64, 65_535, 65_536, u32::MAX]),
            _ => self.random.below(rules.max(1)) as u32,
        };
        Case {
            kind: CaseKind::Scope,
            signature: signature.bytes(),
            record: group.bytes(),
            number,
        }
    }

    fn limit(&mut self) -> Case {
        let limit = self.random.pick(limits::LIMITS);
        let mut case = (limit.case)(self.random.below(2));
        let reads = matches!(case.kind, CaseKind::ReadRule | CaseKind::ReadGroup);
        if reads && self.random.chance(50) {
            case = limits::answered_whole(case);
        }
        case
    }
}

fn flatten_case(signature: &SignatureRecord, rule: &RuleRecord, room: u32) -> Case {
    Case {
        kind: CaseKind::Flatten,
        signature: signature.bytes(),
        record: rule.bytes(),
        number: room,
    }
}
