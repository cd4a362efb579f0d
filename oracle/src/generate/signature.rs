//! Random sound signatures.

use crate::random::Random;
use crate::records::{FuncRecord, PredRecord, SignatureRecord};

const COLUMNS: usize = 8;

pub fn signature(random: &mut Random) -> SignatureRecord {
    let types = match random.below(25) {
        0 => random.range(0, 12),
        1..=10 => random.range(1, 2),
        _ => random.range(1, 5),
    };
    let mut record = SignatureRecord {
        types: vec![Vec::new(); types],
        ..SignatureRecord::default()
    };
    if types == 0 {
        record.preds = vec![PredRecord::default(); random.below(3)];
        return record;
    }
    for at in 0..types {
        if random.chance(55) {
            record.types[at] = type_parents(&record, at, random);
        }
    }
    for _ in 0..random.range(0, 4) {
        let parents = relation_parents(&record, random);
        let most = 4.min(COLUMNS - parents.len());
        let args = any_types(types, random.range(0, most), random);
        record.preds.push(PredRecord { parents, args });
    }
    for _ in 0..random.range(0, 4) {
        let parents = relation_parents(&record, random);
        let most = 3.min(COLUMNS - 1 - parents.len());
        let domain = any_types(types, random.range(0, most), random);
        let codomain = random.below(types) as u16;
        record.funcs.push(FuncRecord {
            parents,
            domain,
            codomain,
        });
    }
    record
}

fn any_types(types: usize, count: usize, random: &mut Random) -> Vec<u16> {
    (0..count).map(|_| random.below(types) as u16).collect()
}

/// The parents of a type and the type itself: what a relation inside that model
/// has as parents.
fn chain(record: &SignatureRecord, typ: usize) -> Vec<u16> {
    let mut chain = record.types[typ].clone();
    chain.push(typ as u16);
    chain
}

/// One to four, either a chain as the Rust makes it or any types at all.
fn type_parents(record: &SignatureRecord, at: usize, random: &mut Random) -> Vec<u16> {
    if at > 0 && random.chance(70) {
        let parents = chain(record, random.below(at));
        if parents.len() <= 4 {
            return parents;
        }
    }
    any_types(record.types.len(), random.range(1, 4), random)
}

fn relation_parents(record: &SignatureRecord, random: &mut Random) -> Vec<u16> {
    let types = record.types.len();
    match random.below(10) {
        0..=3 => Vec::new(),
        4..=8 => chain(record, random.below(types)),
        // Any number of any types, so that scope finds too few arguments.
        _ => any_types(types, random.range(1, 3), random),
    }
}
