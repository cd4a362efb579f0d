//! Damage to a sound record's fields and bytes.

use crate::random::Random;
use crate::records::{joined, Field};

/// The record's bytes after one to three faults.
pub fn damaged(fields: &[Field], random: &mut Random) -> Vec<u8> {
    let mut fields = fields.to_vec();
    let faults = *random.pick(&[1, 1, 1, 1, 2, 3]);
    for _ in 0..faults {
        if random.chance(85) {
            damage_field(&mut fields, random);
        }
    }
    let mut bytes = joined(&fields);
    if random.chance(20) {
        damage_bytes(&mut bytes, random);
    }
    bytes
}

fn damage_field(fields: &mut Vec<Field>, random: &mut Random) {
    if fields.is_empty() {
        fields.push(any_field(random));
        return;
    }
    let at = random.below(fields.len());
    match random.below(19) {
        0 => drop(fields.remove(at)),
        1 => {
            let copy = fields[at].clone();
            fields.insert(at, copy);
        }
        2 => {
            let other = random.below(fields.len());
            fields.swap(at, other);
        }
        3 => swap_with_like(fields, at, random),
        4 => fields[at].letter = any_letter(random),
        5 => fields.insert(at, any_field(random)),
        6 => repeat(fields, at, random),
        7 => drop(fields[at].content.pop()),
        8 => fields[at].content.push(random.byte()),
        9 => shorten(&mut fields[at].content, random),
        10 => lengthen(&mut fields[at].content, random),
        11 => rename(&mut fields[at], random),
        12 => fields.truncate(at),
        13 | 14 => recode(&mut fields[at], random),
        _ => renumber(&mut fields[at].content, random),
    }
}

/// Breaks an order without touching a content.
fn swap_with_like(fields: &mut [Field], at: usize, random: &mut Random) {
    let letter = fields[at].letter;
    let all = fields.iter().enumerate();
    let like: Vec<usize> = all
        .filter(|(_, field)| field.letter == letter)
        .map(|(at, _)| at)
        .collect();
    fields.swap(at, *random.pick(&like));
}

/// Up to 70 more of one field, so that a limit is passed.
fn repeat(fields: &mut Vec<Field>, at: usize, random: &mut Random) {
    let count = random.range(1, 70);
    let copies = vec![fields[at].clone(); count];
    fields.splice(at..at, copies);
}

/// Takes columns away.
fn shorten(content: &mut Vec<u8>, random: &mut Random) {
    let count = 2 * random.range(1, 3);
    content.truncate(content.len().saturating_sub(count));
}

/// Adds columns that repeat what stands there.
fn lengthen(content: &mut Vec<u8>, random: &mut Random) {
    for _ in 0..*random.pick(&[1, 1, 2, 5, 9]) {
        let tail = content.len().saturating_sub(2);
        let last = content[tail..].to_vec();
        content.extend(last);
    }
}

/// Alters where a name stands, if one does.
fn rename(field: &mut Field, random: &mut Random) {
    let start = match field.letter {
        b'G' | b'U' => 0,
        b'N' | b'V' | b'W' => 2,
        b'I' => 4,
        _ => return,
    };
    field.content.resize(start, 0);
    let length = *random.pick(&[0, 1, 2, 23, 24, 25, 31, 32, 33]);
    let filling = *random.pick(&[b'a', b'~', b'!', b' ', 127, 0, 200]);
    field.content.extend(vec![b'q'; length]);
    if let Some(last) = field.content[start..].last_mut() {
        *last = filling;
    }
}

/// Puts another kind, class or count of parents where one stands.
fn recode(field: &mut Field, random: &mut Random) {
    let (at, codes) = match field.letter {
        b'K' => (4, 6),
        b'X' => (0, 5),
        b'B' | b'H' => (0, 8),
        b'P' | b'F' => (0, 5),
        _ => return,
    };
    if let Some(code) = field.content.get_mut(at) {
        *code = random.below(codes) as u8;
    }
}

/// Puts another number, or another byte, somewhere into a content.
fn renumber(content: &mut [u8], random: &mut Random) {
    if content.is_empty() {
        return;
    }
    let at = random.below(content.len());
    content[at] = match random.below(4) {
        0 => random.byte(),
        1 => content[at].wrapping_add(1),
        2 => content[at].wrapping_sub(1),
        _ => random.below(6) as u8,
    };
}

fn any_letter(random: &mut Random) -> u8 {
    if random.chance(85) {
        *random.pick(b"TPFNSERAVIMKXGWUBH")
    } else {
        random.byte()
    }
}

fn any_field(random: &mut Random) -> Field {
    let length = random.below(9);
    let content = (0..length).map(|_| random.below(3) as u8).collect();
    Field::new(any_letter(random), content)
}

fn damage_bytes(bytes: &mut Vec<u8>, random: &mut Random) {
    if bytes.is_empty() {
        bytes.push(random.byte());
        return;
    }
    let at = random.below(bytes.len());
    match random.below(5) {
        0 => bytes[at] = random.byte(),
        1 => bytes[at] ^= 1 << random.below(8),
        2 => drop(bytes.remove(at)),
        3 => bytes.insert(at, random.byte()),
        _ => bytes.truncate(at),
    }
}
