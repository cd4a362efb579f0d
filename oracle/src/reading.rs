//! A second reading of refusals 1 to 8, straight from document 01's words.
//!
//! This is no oracle. The published code knows no byte records, so nothing of
//! it can be run to learn these numbers; what stands here is one more reading
//! of the paper, written apart from the delivered code and kept plain so that it
//! can be compared with the paper by eye. It shares no code with `records`.
//!
//! Each record is read in three steps: cut it into fields, up to the first one
//! that draws 2; collect what those fields let others name; then go through them
//! from the front and report the first faulty one, and of its faults the lowest
//! number. Only when none is faulty does the 2 behind them count.

use std::collections::{BTreeMap, BTreeSet};

const SIGNATURE_BYTES: usize = 32_768;
const RULE_BYTES: usize = 32_768;
const GROUP_BYTES: usize = 65_535;
/// Of each letter but S, W and U; of E, R, A, V and I per structure.
const FIELDS: usize = 64;
const STRUCTURES: usize = 32;
const VARIABLES: usize = 2_048;
const RULES: usize = 64;
const TYPE_PARENTS: usize = 4;
const COLUMNS: usize = 8;
const RULE_NAME: usize = 24;
const GROUP_NAME: usize = 32;

/// Accepted, or the number of the refusal.
type Reading<T> = Result<T, u8>;

fn refuse(when: bool, number: u8) -> Reading<()> {
    if when {
        Err(number)
    } else {
        Ok(())
    }
}

/// How many columns each symbol has.
pub struct Arities {
    /// Parents of each type.
    types: Vec<usize>,
    preds: Vec<usize>,
    /// With the result.
    funcs: Vec<usize>,
}

/// The signature's refusal alone.
pub fn signature(bytes: &[u8]) -> Reading<Arities> {
    refuse(bytes.len() > SIGNATURE_BYTES, 1)?;
    let record = cut(bytes, SIGNATURE_LETTERS);
    let types = record.fields.iter().filter(|field| field.letter == b'T');
    let types = types.count();
    let mut seen = Seen::default();
    let mut arities = Arities {
        types: Vec::new(),
        preds: Vec::new(),
        funcs: Vec::new(),
    };
    for field in &record.fields {
        let columns = signature_field(field, types, &mut seen)?;
        match field.letter {
            b'T' => arities.types.push(columns),
            b'P' => arities.preds.push(columns),
            _ => arities.funcs.push(columns),
        }
    }
    refuse(record.two_behind, 2)?;
    Ok(arities)
}

/// The signature's refusal, else the rule's.
pub fn rule(signature_bytes: &[u8], bytes: &[u8]) -> Reading<()> {
    let arities = signature(signature_bytes)?;
    refuse(bytes.len() > RULE_BYTES, 1)?;
    let record = cut(bytes, RULE_LETTERS);
    let mut rule = RuleReading {
        arities: &arities,
        elements: elements_by_structure(&record.fields),
        structures: 0,
        seen: Seen::default(),
    };
    for field in &record.fields {
        rule.field(field)?;
    }
    refuse(record.two_behind, 2)
}

/// The signature's refusal, else the group's.
pub fn group(signature_bytes: &[u8], bytes: &[u8]) -> Reading<()> {
    let arities = signature(signature_bytes)?;
    refuse(bytes.len() > GROUP_BYTES, 1)?;
    let record = cut(bytes, GROUP_LETTERS);
    let variables = record.fields.iter().filter(|field| field.letter == b'W');
    let variables = variables.count();
    let mut seen = Seen::default();
    for field in &record.fields {
        group_field(field, &arities, variables, &mut seen)?;
    }
    refuse(record.two_behind, 2)
}

// ------------------------------------------------------------------ cutting

/// Which letters may come next, by the letter before; `START` before the first.
type Letters = &'static [(u8, &'static [u8])];

const START: u8 = 0;

const SIGNATURE_LETTERS: Letters = &[(START, b"TPF"), (b'T', b"TPF"), (b'P', b"PF"), (b'F', b"F")];

const RULE_LETTERS: Letters = &[
    (START, b"N"),
    (b'N', b"S"),
    (b'S', b"SERAVIMKX"),
    (b'E', b"SERAVIMKX"),
    (b'R', b"SRAVIMKX"),
    (b'A', b"SAVIMKX"),
    (b'V', b"SVIMKX"),
    (b'I', b"SIMKX"),
    (b'M', b"MKX"),
    (b'K', b"KX"),
    (b'X', b"X"),
];

const GROUP_LETTERS: Letters = &[
    (START, b"G"),
    (b'G', b"WU"),
    (b'W', b"WU"),
    (b'U', b"UBH"),
    (b'B', b"UBH"),
    (b'H', b"UH"),
];

/// Whether a required field is still missing: N and one S in a rule, G in a
/// group, nothing in a signature. Just where one is, it is all that may come.
fn misses(letters: Letters, last: u8) -> bool {
    matches!(next(letters, last), b"N" | b"S" | b"G")
}

fn next(letters: Letters, last: u8) -> &'static [u8] {
    let row = letters.iter().find(|(before, _)| *before == last);
    row.map_or(b"", |(_, next)| next)
}

struct Field<'a> {
    letter: u8,
    content: &'a [u8],
}

struct Record<'a> {
    /// The fields before the first that draws 2.
    fields: Vec<Field<'a>>,
    /// Whether one draws 2, or a required one is missing at the end.
    two_behind: bool,
}

fn cut(bytes: &[u8], letters: Letters) -> Record<'_> {
    let mut fields = Vec::new();
    let mut last = START;
    let mut at = 0;
    while at < bytes.len() {
        let Some(field) = field_at(bytes, at) else {
            break;
        };
        if !next(letters, last).contains(&field.letter) {
            break;
        }
        last = field.letter;
        at += 3 + field.content.len();
        fields.push(field);
    }
    let two_behind = at < bytes.len() || misses(letters, last);
    Record { fields, two_behind }
}

/// The field that begins at `at`, unless it passes the end.
fn field_at(bytes: &[u8], at: usize) -> Option<Field<'_>> {
    let head = bytes.get(at..at + 3)?;
    let length = number_at(head, 1);
    let content = bytes.get(at + 3..at + 3 + length)?;
    Some(Field {
        letter: head[0],
        content,
    })
}

fn number_at(bytes: &[u8], at: usize) -> usize {
    usize::from(bytes[at]) * 256 + usize::from(bytes[at + 1])
}

/// All numbers of an even run of bytes.
fn numbers(bytes: &[u8]) -> Vec<usize> {
    let starts = (0..bytes.len() / 2).map(|index| index * 2);
    starts.map(|at| number_at(bytes, at)).collect()
}

fn is_even(length: usize) -> bool {
    length.is_multiple_of(2)
}

// ------------------------------------------------------- limits, order, names

/// What came before, by letter: how many fields, and the last one's key.
#[derive(Default)]
struct Seen {
    counts: BTreeMap<u8, usize>,
    keys: BTreeMap<u8, Vec<usize>>,
}

impl Seen {
    /// Counts this field; 4 when it is above the limit.
    fn limit(&mut self, letter: u8, limit: usize) -> Reading<()> {
        let count = self.counts.entry(letter).or_insert(0);
        *count += 1;
        refuse(*count > limit, 4)
    }

    /// 6 unless the key is above the last one of this letter.
    fn ascend(&mut self, letter: u8, key: Vec<usize>) -> Reading<()> {
        let last = self.keys.insert(letter, key.clone());
        refuse(last.is_some_and(|last| key <= last), 6)
    }

    /// 6 when the key is below the last one of this letter.
    fn not_fall(&mut self, letter: u8, key: Vec<usize>) -> Reading<()> {
        let last = self.keys.insert(letter, key.clone());
        refuse(last.is_some_and(|last| key < last), 6)
    }

    /// A new structure begins.
    fn forget(&mut self, letters: &[u8]) {
        for letter in letters {
            self.counts.remove(letter);
            self.keys.remove(letter);
        }
    }
}

fn name(bytes: &[u8], shortest: usize, longest: usize) -> Reading<()> {
    refuse(bytes.len() < shortest || bytes.len() > longest, 8)?;
    refuse(bytes.iter().any(|byte| !(33..=126).contains(byte)), 8)
}

/// A name as a key to compare.
fn name_key(bytes: &[u8]) -> Vec<usize> {
    bytes.iter().map(|&byte| usize::from(byte)).collect()
}

fn all_below(numbers: &[usize], count: usize) -> bool {
    numbers.iter().all(|&number| number < count)
}

// ---------------------------------------------------------------- signature

/// The columns of a sound field: parents of a T, all columns of a P or F.
fn signature_field(field: &Field<'_>, types: usize, seen: &mut Seen) -> Reading<usize> {
    let content = field.content;
    if field.letter == b'T' {
        refuse(!is_even(content.len()), 3)?;
        let parents = numbers(content);
        seen.limit(b'T', FIELDS)?;
        refuse(parents.len() > TYPE_PARENTS, 4)?;
        refuse(!all_below(&parents, types), 5)?;
        return Ok(parents.len());
    }
    refuse(is_even(content.len()), 3)?;
    let columns = numbers(&content[1..]);
    let parents = usize::from(content[0]);
    let results = usize::from(field.letter == b'F');
    refuse(parents + results > columns.len(), 3)?;
    seen.limit(field.letter, FIELDS)?;
    refuse(columns.len() > COLUMNS, 4)?;
    refuse(!all_below(&columns, types), 5)?;
    Ok(columns.len())
}

// --------------------------------------------------------------------- rule

/// For each S, the numbers of the E fields that stand in it and have one.
fn elements_by_structure(fields: &[Field<'_>]) -> Vec<BTreeSet<usize>> {
    let mut structures: Vec<BTreeSet<usize>> = Vec::new();
    for field in fields {
        match (field.letter, structures.last_mut()) {
            (b'S', _) => structures.push(BTreeSet::new()),
            (b'E', Some(elements)) if field.content.len() >= 2 => {
                elements.insert(number_at(field.content, 0));
            }
            _ => {}
        }
    }
    structures
}

struct RuleReading<'a> {
    arities: &'a Arities,
    elements: Vec<BTreeSet<usize>>,
    /// How many S came so far.
    structures: usize,
    seen: Seen,
}

impl RuleReading<'_> {
    fn field(&mut self, field: &Field<'_>) -> Reading<()> {
        let content = field.content;
        match field.letter {
            b'N' => self.rule_name(content),
            b'S' => self.structure(content),
            b'E' => self.element(content),
            b'R' => self.row(content),
            b'A' => self.application(content),
            b'V' => self.variable(content),
            b'I' => self.identifier(content),
            b'M' => self.map(content),
            b'K' => self.kind(content),
            _ => self.mark(content),
        }
    }

    /// Whether all these are elements of the structure that is being read.
    fn are_elements(&self, numbers: &[usize]) -> bool {
        let elements = &self.elements[self.structures - 1];
        numbers.iter().all(|number| elements.contains(number))
    }

    fn is_structure(&self, number: usize) -> bool {
        number < self.elements.len()
    }

    fn rule_name(&mut self, content: &[u8]) -> Reading<()> {
        refuse(content.len() < 2, 3)?;
        name(&content[2..], 0, RULE_NAME)
    }

    fn structure(&mut self, content: &[u8]) -> Reading<()> {
        self.structures += 1;
        self.seen.forget(b"ERAVI");
        refuse(!content.is_empty(), 3)?;
        self.seen.limit(b'S', STRUCTURES)
    }

    fn element(&mut self, content: &[u8]) -> Reading<()> {
        refuse(!is_even(content.len()) || content.len() < 4, 3)?;
        self.seen.limit(b'E', FIELDS)?;
        let all = numbers(content);
        let (element, typ, parents) = (all[0], all[1], &all[2..]);
        let type_parents = self.arities.types.get(typ).copied();
        refuse(type_parents.is_none() || !self.are_elements(parents), 5)?;
        self.seen.ascend(b'E', vec![element])?;
        refuse(type_parents != Some(parents.len()), 7)
    }

    fn row(&mut self, content: &[u8]) -> Reading<()> {
        refuse(!is_even(content.len()) || content.len() < 2, 3)?;
        self.seen.limit(b'R', FIELDS)?;
        let all = numbers(content);
        let columns = self.arities.preds.get(all[0]).copied();
        refuse(columns.is_none() || !self.are_elements(&all[1..]), 5)?;
        let count = all.len() - 1;
        self.seen.ascend(b'R', all)?;
        refuse(columns != Some(count), 7)
    }

    fn application(&mut self, content: &[u8]) -> Reading<()> {
        refuse(!is_even(content.len()) || content.len() < 4, 3)?;
        self.seen.limit(b'A', FIELDS)?;
        let all = numbers(content);
        let columns = self.arities.funcs.get(all[0]).copied();
        refuse(columns.is_none() || !self.are_elements(&all[1..]), 5)?;
        let without_result = all[..all.len() - 1].to_vec();
        self.seen.ascend(b'A', without_result)?;
        refuse(columns != Some(all.len() - 1), 7)
    }

    fn variable(&mut self, content: &[u8]) -> Reading<()> {
        refuse(content.len() < 2, 3)?;
        self.seen.limit(b'V', FIELDS)?;
        refuse(!self.are_elements(&[number_at(content, 0)]), 5)?;
        self.seen.ascend(b'V', name_key(&content[2..]))?;
        name(&content[2..], 1, RULE_NAME)
    }

    fn identifier(&mut self, content: &[u8]) -> Reading<()> {
        refuse(content.len() < 4, 3)?;
        self.seen.limit(b'I', FIELDS)?;
        refuse(!self.are_elements(&[number_at(content, 2)]), 5)?;
        self.seen.ascend(b'I', vec![number_at(content, 0)])?;
        name(&content[4..], 1, RULE_NAME)
    }

    fn map(&mut self, content: &[u8]) -> Reading<()> {
        refuse(content.len() < 4 || !content.len().is_multiple_of(4), 3)?;
        self.seen.limit(b'M', FIELDS)?;
        let all = numbers(content);
        let (source, target) = (all[0], all[1]);
        refuse(!self.is_structure(source) || !self.is_structure(target), 5)?;
        let keys: Vec<usize> = all[2..].iter().copied().step_by(2).collect();
        let images: Vec<usize> = all[2..].iter().copied().skip(1).step_by(2).collect();
        let (sources, targets) = (&self.elements[source], &self.elements[target]);
        refuse(keys.iter().any(|key| !sources.contains(key)), 5)?;
        refuse(images.iter().any(|image| !targets.contains(image)), 5)?;
        self.seen.ascend(b'M', vec![source, target])?;
        refuse(keys.windows(2).any(|two| two[0] >= two[1]), 6)
    }

    fn kind(&mut self, content: &[u8]) -> Reading<()> {
        refuse(content.len() != 5, 3)?;
        self.seen.limit(b'K', FIELDS)?;
        let (source, target) = (number_at(content, 0), number_at(content, 2));
        refuse(!self.is_structure(source) || !self.is_structure(target), 5)?;
        refuse(content[4] > 3, 5)?;
        self.seen.ascend(b'K', vec![source, target])
    }

    fn mark(&mut self, content: &[u8]) -> Reading<()> {
        refuse(content.len() != 3, 3)?;
        self.seen.limit(b'X', FIELDS)?;
        let class = usize::from(content[0]);
        refuse(class > 2 || !self.is_structure(number_at(content, 1)), 5)?;
        self.seen.not_fall(b'X', vec![class])
    }
}

// -------------------------------------------------------------------- group

fn group_field(
    field: &Field<'_>,
    arities: &Arities,
    variables: usize,
    seen: &mut Seen,
) -> Reading<()> {
    let content = field.content;
    match field.letter {
        b'G' => name(content, 1, GROUP_NAME),
        b'W' => {
            refuse(content.len() < 2, 3)?;
            seen.limit(b'W', VARIABLES)?;
            refuse(number_at(content, 0) >= arities.types.len(), 5)?;
            name(&content[2..], 1, GROUP_NAME)
        }
        b'U' => {
            seen.limit(b'U', RULES)?;
            name(content, 1, GROUP_NAME)
        }
        letter => statement(letter, content, arities, variables),
    }
}

/// A B or H: a byte kind, a symbol, variables.
fn statement(letter: u8, content: &[u8], arities: &Arities, variables: usize) -> Reading<()> {
    refuse(is_even(content.len()) || content.len() < 3, 3)?;
    let kind = content[0];
    let symbol = number_at(content, 1);
    let used = numbers(&content[3..]);
    let other_side = if letter == b'B' { 5 } else { 4 };
    refuse(kind > 5 || kind == other_side, 5)?;
    let symbols = match kind {
        0 => arities.preds.len(),
        1 | 5 => arities.funcs.len(),
        _ => arities.types.len(),
    };
    refuse(symbol >= symbols || !all_below(&used, variables), 5)?;
    refuse(columns(kind, symbol, arities) != Some(used.len()), 7)
}

/// None for the member relation of a parentless type, which doesn't exist.
fn columns(kind: u8, symbol: usize, arities: &Arities) -> Option<usize> {
    match kind {
        0 => Some(arities.preds[symbol]),
        1 => Some(arities.funcs[symbol]),
        2 => Some(arities.types[symbol] + 1).filter(|&columns| columns > 1),
        3 => Some(2),
        4 => Some(1),
        _ => Some(arities.funcs[symbol] - 1),
    }
}
