//! A short notation for records made by hand.
//!
//! Fields are separated by `;`. A field is its letter and its content's parts,
//! separated by blanks: `7` is a two-byte number, `#7` a byte, `'abc'` the bytes
//! of a name (without blanks and semicolons), and `x*3` repeats the part three
//! times. So `E 0 1; V 0 'x'; K 0 1 #2` are three fields.

use crate::records::{joined, Field};

/// The record's bytes. Panics on what isn't the notation: it is only used on
/// constants of this package.
pub fn record(text: &str) -> Vec<u8> {
    let fields: Vec<Field> = text
        .split(';')
        .filter(|part| !part.trim().is_empty())
        .map(field)
        .collect();
    joined(&fields)
}

fn field(text: &str) -> Field {
    let mut parts = text.split_whitespace();
    let letter = parts.next().expect("a field has a letter");
    let [letter] = letter.as_bytes() else {
        panic!("{letter} is not a letter");
    };
    Field::new(*letter, parts.flat_map(repeated).collect())
}

fn repeated(text: &str) -> Vec<u8> {
    match text.rsplit_once('*') {
        Some((part, count)) => {
            let count = count.parse().unwrap_or_else(|_| panic!("{text}: count"));
            self::part(part).repeat(count)
        }
        None => part(text),
    }
}

fn part(text: &str) -> Vec<u8> {
    if let Some(name) = text.strip_prefix('\'') {
        let name = name.strip_suffix('\'').expect("a name ends in a quote");
        return name.as_bytes().to_vec();
    }
    if let Some(byte) = text.strip_prefix('#') {
        return vec![byte.parse().unwrap_or_else(|_| panic!("{text}: byte"))];
    }
    let number: u16 = text.parse().unwrap_or_else(|_| panic!("{text}: number"));
    number.to_be_bytes().to_vec()
}

#[cfg(test)]
mod tests {
    use super::record;

    #[test]
    fn parts_of_all_kinds() {
        assert_eq!(record(""), b"");
        assert_eq!(record("S"), b"S\0\0");
        assert_eq!(
            record("V 258 'ab'; K 0 #9"),
            b"V\0\x04\x01\x02abK\0\x03\0\0\x09"
        );
        assert_eq!(record("T 1*2"), b"T\0\x04\0\x01\0\x01");
    }
}
