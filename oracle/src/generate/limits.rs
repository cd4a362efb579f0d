//! Records at a limit of document 01 and one past it.

use super::AMPLE;
use crate::answer::group_bytes;
use crate::case::{Case, CaseKind, MOST};
use crate::records::{
    joined, AppRecord, ElRecord, Field, FlatRuleRecord, FuncRecord, GroupRecord, IdentRecord, Kind,
    KindRecord, MapRecord, MarkClass, MarkRecord, PredRecord, RowRecord, RuleRecord,
    SignatureRecord, StatementKind, StatementRecord, StructureRecord,
};

/// A limit and its case, with 0 at the limit and with 1 one past it.
pub struct Limit {
    pub title: &'static str,
    pub case: fn(usize) -> Case,
}

const fn limit(title: &'static str, case: fn(usize) -> Case) -> Limit {
    Limit { title, case }
}

pub const LIMITS: &[Limit] = &[
    limit("64 T", |past| sound_rule(&signature(64 + past, 1, 1))),
    limit("64 P", |past| sound_rule(&signature(1, 64 + past, 1))),
    limit("64 F", |past| sound_rule(&signature(1, 1, 64 + past))),
    limit("4 parents of a T", |past| {
        sound_rule(&wide_signature(4 + past, 8, 8))
    }),
    limit("8 columns of a P", |past| {
        sound_rule(&wide_signature(4, 8 + past, 8))
    }),
    limit("8 columns of an F", |past| {
        sound_rule(&wide_signature(4, 8, 8 + past))
    }),
    limit("32 S", |past| plain_rule(&rule_with(b'S', 32 + past))),
    limit("64 E", |past| plain_rule(&rule_with(b'E', 64 + past))),
    limit("64 R", |past| plain_rule(&rule_with(b'R', 64 + past))),
    limit("64 A", |past| plain_rule(&rule_with(b'A', 64 + past))),
    limit("64 V", |past| plain_rule(&rule_with(b'V', 64 + past))),
    limit("64 I", |past| plain_rule(&rule_with(b'I', 64 + past))),
    limit("64 M", |past| plain_rule(&rule_with(b'M', 64 + past))),
    limit("64 K", |past| plain_rule(&rule_with(b'K', 64 + past))),
    limit("64 X", |past| plain_rule(&rule_with(b'X', 64 + past))),
    limit("24 bytes of an N name", |past| {
        plain_rule(&rule_with_names(24 + past, 24, 24))
    }),
    limit("24 bytes of a V name", |past| {
        plain_rule(&rule_with_names(24, 24 + past, 24))
    }),
    limit("24 bytes of an I name", |past| {
        plain_rule(&rule_with_names(24, 24, 24 + past))
    }),
    limit("2,048 W", |past| plain_group(&group_with(2_048 + past, 1))),
    limit("64 U", |past| plain_group(&group_with(1, 64 + past))),
    limit("32 bytes of a G name", |past| {
        plain_group(&group_with_names(32 + past, 32, 32))
    }),
    limit("32 bytes of a W name", |past| {
        plain_group(&group_with_names(32, 32 + past, 32))
    }),
    limit("32 bytes of a U name", |past| {
        plain_group(&group_with_names(32, 32, 32 + past))
    }),
    // No signature within the other limits is that long.
    limit("32,768 bytes of signature", |past| {
        read(CaseKind::ReadRule, vec![0; 32_768 + past], Vec::new())
    }),
    limit("32,768 bytes of signature before a group", |past| {
        read(CaseKind::ReadGroup, vec![0; 32_768 + past], Vec::new())
    }),
    limit("32,768 bytes of rule", |past| {
        let signature = plain_signature().bytes();
        read(CaseKind::ReadRule, signature, rule_of_length(32_768 + past))
    }),
    limit("65,535 bytes of group", |past| {
        let signature = plain_signature().bytes();
        read(
            CaseKind::ReadGroup,
            signature,
            group_of_length(65_535 + past),
        )
    }),
    limit("65,535 bytes of answer", |past| {
        let rule = rule_with_answer_of(65_535 + past);
        let case = plain_rule(&rule);
        Case {
            number: MOST as u32,
            ..answered_whole(case)
        }
    }),
];

fn read(kind: CaseKind, signature: Vec<u8>, record: Vec<u8>) -> Case {
    Case {
        kind,
        signature,
        record,
        number: 0,
    }
}

/// The signature, with a rule that is sound over any.
fn sound_rule(signature: &SignatureRecord) -> Case {
    let rule = rule_with(b'S', 1).bytes();
    read(CaseKind::ReadRule, signature.bytes(), rule)
}

fn plain_rule(rule: &RuleRecord) -> Case {
    read(CaseKind::ReadRule, plain_signature().bytes(), rule.bytes())
}

fn plain_group(group: &GroupRecord) -> Case {
    read(
        CaseKind::ReadGroup,
        plain_signature().bytes(),
        group.bytes(),
    )
}

/// The same input as a case of flatten or scope.
pub fn answered_whole(case: Case) -> Case {
    let (kind, number) = match case.kind {
        CaseKind::ReadRule | CaseKind::Flatten => (CaseKind::Flatten, AMPLE),
        CaseKind::ReadGroup | CaseKind::Scope => (CaseKind::Scope, 0),
    };
    Case {
        kind,
        number,
        ..case
    }
}

/// A signature of these numbers of types, predicates and functions.
fn signature(types: usize, preds: usize, funcs: usize) -> SignatureRecord {
    SignatureRecord {
        types: vec![Vec::new(); types],
        preds: vec![PredRecord::default(); preds],
        funcs: vec![FuncRecord::default(); funcs],
    }
}

/// Type 0 parentless; a type of so many parents, a predicate and a function of
/// so many columns, the function's result counted.
fn wide_signature(parents: usize, pred: usize, func: usize) -> SignatureRecord {
    SignatureRecord {
        types: vec![Vec::new(), vec![0; parents]],
        preds: vec![PredRecord {
            parents: Vec::new(),
            args: vec![0; pred],
        }],
        funcs: vec![FuncRecord {
            parents: Vec::new(),
            domain: vec![0; func - 1],
            codomain: 0,
        }],
    }
}

/// A type without parents, a predicate of two columns, a function of one.
pub fn plain_signature() -> SignatureRecord {
    SignatureRecord {
        types: vec![Vec::new()],
        preds: vec![PredRecord {
            parents: Vec::new(),
            args: vec![0, 0],
        }],
        funcs: vec![FuncRecord {
            parents: Vec::new(),
            domain: vec![0],
            codomain: 0,
        }],
    }
}

fn plain_elements(count: usize) -> Vec<ElRecord> {
    let element = |el| ElRecord {
        el: el as u16,
        typ: 0,
        parents: Vec::new(),
    };
    (0..count).map(element).collect()
}

/// A two-letter name; ascends with the number.
fn counted_name(number: usize) -> Vec<u8> {
    vec![b'a' + (number / 26) as u8, b'a' + (number % 26) as u8]
}

fn named(structures: Vec<StructureRecord>) -> RuleRecord {
    RuleRecord {
        name: b"r".to_vec(),
        structures,
        ..RuleRecord::default()
    }
}

/// A rule over the plain signature with so many fields of one letter.
fn rule_with(letter: u8, count: usize) -> RuleRecord {
    match letter {
        b'S' => named(vec![StructureRecord::default(); count]),
        b'M' | b'K' | b'X' => many_pairs(letter, count),
        _ => named(vec![structure_with(letter, count)]),
    }
}

fn structure_with(letter: u8, count: usize) -> StructureRecord {
    let els = match letter {
        b'E' => count,
        b'R' => 9,
        b'A' => 64,
        _ => 1,
    };
    let mut structure = StructureRecord {
        els: plain_elements(els),
        ..StructureRecord::default()
    };
    match letter {
        b'E' => {}
        b'R' => {
            structure.rows = (0..count)
                .map(|at| RowRecord {
                    pred: 0,
                    els: vec![(at / 9) as u16, (at % 9) as u16],
                })
                .collect();
        }
        b'A' => {
            // The 65th repeats the 64th: the limit comes before the order.
            structure.apps = (0..count)
                .map(|at| AppRecord {
                    func: 0,
                    els: vec![at.min(63) as u16],
                    result: 0,
                })
                .collect();
        }
        b'V' => structure.vars = (0..count).map(|at| (0, counted_name(at))).collect(),
        _ => {
            structure.idents = (0..count)
                .map(|at| IdentRecord {
                    term: at as u16,
                    el: 0,
                    name: b"i".to_vec(),
                })
                .collect();
        }
    }
    structure
}

/// Maps between nine empty structures; kinds and marks for them.
fn many_pairs(letter: u8, count: usize) -> RuleRecord {
    let mut rule = named(vec![StructureRecord::default(); 9]);
    let ends = |at: usize| ((at / 9) as u16, (at % 9) as u16);
    let (maps, kinds, marks) = match letter {
        b'M' => (count, 0, 0),
        b'K' => (0, count, 0),
        _ => (0, 0, count),
    };
    for (source, target) in (0..maps).map(ends) {
        rule.maps.push(MapRecord {
            source,
            target,
            pairs: Vec::new(),
        });
    }
    for (source, target) in (0..kinds).map(ends) {
        rule.kinds.push(KindRecord {
            source,
            target,
            kind: Kind::If,
        });
    }
    rule.marks = vec![
        MarkRecord {
            class: MarkClass::BranchStart,
            structure: 1,
        };
        marks
    ];
    if letter == b'X' {
        rule.maps.push(MapRecord {
            source: 0,
            target: 1,
            pairs: Vec::new(),
        });
    }
    rule
}

/// A rule whose name, V name and I name have so many bytes.
fn rule_with_names(rule: usize, var: usize, ident: usize) -> RuleRecord {
    let mut record = named(vec![StructureRecord {
        els: plain_elements(1),
        vars: vec![(0, vec![b'v'; var])],
        idents: vec![IdentRecord {
            term: 0,
            el: 0,
            name: vec![b'i'; ident],
        }],
        ..StructureRecord::default()
    }]);
    record.name = vec![b'n'; rule];
    record
}

/// A sound rule of exactly so many bytes, at least 40: structures full of V
/// fields, the names as long as it takes.
fn rule_of_length(length: usize) -> Vec<u8> {
    let mut fields = named(Vec::new()).fields();
    let mut left = length - joined(&fields).len();
    let mut in_structure = usize::MAX;
    while left > 0 {
        if in_structure >= 64 {
            // An S and an E take 10 bytes, a V from 7 to 29.
            fields.push(Field::new(b'S', Vec::new()));
            fields.push(Field::new(b'E', vec![0; 4]));
            left -= 10;
            in_structure = 0;
        }
        // Leave nothing, or enough for an S, an E and a V.
        let size = match left {
            0..=29 => left,
            _ => 29.min(left - 17),
        };
        let mut content = vec![0, 0];
        content.extend(counted_name(in_structure));
        content.resize(size - 3, b'x');
        fields.push(Field::new(b'V', content));
        left -= size;
        in_structure += 1;
    }
    joined(&fields)
}

/// A rule whose group has exactly so many bytes, 65,000 to 66,000. Three maps
/// send all 64 elements to one, which makes 2,016 equalities each; a fourth one
/// sends twenty. The variables' names are as long as it takes.
fn rule_with_answer_of(length: usize) -> RuleRecord {
    let mut rule = named(vec![StructureRecord {
        els: plain_elements(64),
        ..StructureRecord::default()
    }]);
    for (target, keys) in [(1, 64), (2, 64), (3, 64), (4, 20)] {
        rule.structures.push(StructureRecord {
            els: plain_elements(1),
            ..StructureRecord::default()
        });
        rule.maps.push(MapRecord {
            source: 0,
            target,
            pairs: (0..keys).map(|key| (key, 0)).collect(),
        });
        rule.kinds.push(KindRecord {
            source: 0,
            target,
            kind: Kind::SurjThen,
        });
    }
    let shortest = group_bytes(&plain_signature().bytes(), &rule.bytes())
        .expect("the rule is accepted")
        .len();
    let mut left = length - shortest;
    for el in 0..64 {
        // Two bytes take the place of `el`.
        let more = left.min(22);
        let mut name = counted_name(el);
        name.extend(vec![b'x'; more]);
        rule.structures[0].vars.push((el as u16, name));
        left -= more;
    }
    rule
}

/// A group over the plain signature with so many variables and rules.
fn group_with(vars: usize, rules: usize) -> GroupRecord {
    GroupRecord {
        name: b"g".to_vec(),
        vars: vec![(0, b"w".to_vec()); vars],
        rules: vec![
            FlatRuleRecord {
                name: b"u".to_vec(),
                ..FlatRuleRecord::default()
            };
            rules
        ],
    }
}

/// A group whose names have so many bytes.
fn group_with_names(group: usize, var: usize, rule: usize) -> GroupRecord {
    let mut record = group_with(1, 1);
    record.name = vec![b'g'; group];
    record.vars[0].1 = vec![b'w'; var];
    record.rules[0].name = vec![b'u'; rule];
    record
}

/// A sound group of exactly so many bytes, at least 60: one rule full of
/// TypeSets of eight bytes, its name as long as it takes.
fn group_of_length(length: usize) -> Vec<u8> {
    let mut record = group_with(1, 1);
    let left = length - record.bytes().len();
    record.rules[0].name = vec![b'u'; 1 + left % 8];
    let type_set = StatementRecord {
        kind: StatementKind::TypeSet,
        symbol: 0,
        vars: vec![0],
    };
    record.rules[0].premise = vec![type_set; left / 8];
    record.bytes()
}
