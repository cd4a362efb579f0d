//! Lists of cases as readable text.
//!
//! A case is a block of lines, with a blank line between blocks:
//!
//! ```text
//! case F g2: the same, buffer 59
//! signature 540000 500005000000000000
//! rule 4e0003000072 530000
//! room 59
//! answer refused 31 kept
//! ```
//!
//! Parts are lower-case hexadecimal, a blank before each field for the eye; the
//! blanks mean nothing. `5700020000*9` stands for nine of it. A group's part is
//! called `group`, a position `position`; a title is free. The answer is the
//! line that `replay` prints. Lines that begin with `#` are for the reader.

use std::fmt::Write;

use crate::answer::{answer, hex};
use crate::case::{Case, CaseKind};
use crate::records::{cut, joined};

/// A case and its title, which may be empty.
#[derive(Clone, Debug, PartialEq, Eq)]
pub struct Titled {
    pub title: String,
    pub case: Case,
}

/// A case read from text, and the answer that stands there.
#[derive(Clone, Debug, PartialEq, Eq)]
pub struct Answered {
    pub title: String,
    pub case: Case,
    pub answer: Option<String>,
}

/// The block of one case with the oracle's answer.
pub fn block(titled: &Titled) -> String {
    let case = &titled.case;
    let mut text = String::new();
    let head = format!("case {} {}", case.kind.letter(), titled.title);
    writeln!(text, "{}", head.trim_end()).expect("a String takes every line");
    let mut line = |word: &str, value: &str| {
        let line = format!("{word} {value}");
        writeln!(text, "{}", line.trim_end()).expect("a String takes every line");
    };
    line("signature", &part(&case.signature));
    line(case.kind.record_word(), &part(&case.record));
    if let Some(word) = case.kind.number_word() {
        line(word, &case.number.to_string());
    }
    line("answer", &answer(case).line(case.kind));
    text
}

/// Fields one by one, equal neighbours counted, then what is no field.
pub(crate) fn part(bytes: &[u8]) -> String {
    let (fields, rest) = cut(bytes);
    let mut words: Vec<Vec<u8>> = fields
        .iter()
        .map(|field| joined(std::slice::from_ref(field)))
        .collect();
    let one_byte = rest.len() > 8 && rest.iter().all(|byte| *byte == rest[0]);
    if one_byte {
        words.extend(rest.iter().map(|&byte| vec![byte]));
    } else if !rest.is_empty() {
        words.push(rest.to_vec());
    }
    let runs: Vec<String> = words
        .chunk_by(|one, next| one == next)
        .map(|run| match run.len() {
            1 => hex(&run[0]),
            count => format!("{}*{count}", hex(&run[0])),
        })
        .collect();
    runs.join(" ")
}

/// The cases of a list.
pub fn read(text: &str) -> Result<Vec<Answered>, String> {
    let mut cases: Vec<Answered> = Vec::new();
    for (index, line) in text.lines().enumerate() {
        if line.trim().is_empty() || line.starts_with('#') {
            continue;
        }
        read_line(line, &mut cases).map_err(|fault| format!("line {}: {fault}", index + 1))?;
    }
    Ok(cases)
}

fn read_line(line: &str, cases: &mut Vec<Answered>) -> Result<(), String> {
    let (word, value) = line.split_once(' ').unwrap_or((line, ""));
    if word == "case" {
        cases.push(new_case(value)?);
        return Ok(());
    }
    let current = cases.last_mut().ok_or("a case begins with its letter")?;
    let kind = current.case.kind;
    if word == "signature" {
        current.case.signature = bytes(value)?;
    } else if word == kind.record_word() {
        current.case.record = bytes(value)?;
    } else if Some(word) == kind.number_word() {
        current.case.number = value.parse().map_err(|_| "not a number")?;
    } else if word == "answer" {
        current.answer = Some(value.to_string());
    } else {
        return Err(format!("{word} doesn't belong here"));
    }
    Ok(())
}

fn new_case(value: &str) -> Result<Answered, String> {
    let mut letters = value.chars();
    let kind = letters
        .next()
        .and_then(CaseKind::from_letter)
        .ok_or("unknown letter")?;
    Ok(Answered {
        title: letters.as_str().trim().to_string(),
        case: Case {
            kind,
            signature: Vec::new(),
            record: Vec::new(),
            number: 0,
        },
        answer: None,
    })
}

/// Longest part that a list may write out: far more than any that is kept.
const LONGEST: usize = 1 << 24;

/// The bytes that words in hexadecimal stand for.
pub(crate) fn bytes(text: &str) -> Result<Vec<u8>, String> {
    let mut bytes = Vec::new();
    for word in text.split_whitespace() {
        let (digits, count) = word.split_once('*').unwrap_or((word, "1"));
        let count: usize = count.parse().map_err(|_| "not a count")?;
        let one = from_hex(digits)?;
        let length = one.len().checked_mul(count);
        if length.is_none_or(|length| length > LONGEST - bytes.len()) {
            return Err(format!("a part of more than {LONGEST} bytes"));
        }
        bytes.extend(one.repeat(count));
    }
    Ok(bytes)
}

fn from_hex(digits: &str) -> Result<Vec<u8>, String> {
    let digit = |one: &u8| char::from(*one).to_digit(16).map(|value| value as u8);
    let pairs = digits.as_bytes().chunks(2);
    pairs
        .map(|pair| match pair {
            [high, low] => Some(digit(high)? * 16 + digit(low)?),
            _ => None,
        })
        .collect::<Option<Vec<u8>>>()
        .ok_or_else(|| "not hexadecimal".to_string())
}

#[cfg(test)]
mod tests {
    use super::*;

    fn titled(record: Vec<u8>) -> Titled {
        let case = Case {
            kind: CaseKind::Flatten,
            signature: Vec::new(),
            record,
            number: 7,
        };
        let title = "a title".to_string();
        Titled { title, case }
    }

    fn read_back(titled: &Titled) -> Answered {
        let mut cases = read(&block(titled)).expect("a written block is readable");
        assert_eq!(cases.len(), 1);
        cases.remove(0)
    }

    #[test]
    fn a_block_reads_back() {
        let odd = [b"N\0\x03\0\0r".as_slice(), b"S\0\0S\0\0S\0\0", b"\x01\x02"].concat();
        for record in [Vec::new(), odd, vec![0; 30_000]] {
            let titled = titled(record);
            let back = read_back(&titled);
            assert_eq!((&back.title, &back.case), (&titled.title, &titled.case));
            assert_eq!(back.answer.as_deref(), Some("refused 2 kept"), "{titled:?}");
        }
    }

    #[test]
    fn equal_neighbours_are_counted() {
        assert_eq!(part(b"S\0\0S\0\0S\0\0\x07"), "530000*3 07");
        assert_eq!(part(&[0xff; 9]), "ff*9");
    }

    #[test]
    fn faults_name_their_line() {
        assert_eq!(
            read("# x\nrule 00"),
            Err("line 2: a case begins with its letter".into())
        );
        assert_eq!(read("case Q"), Err("line 1: unknown letter".into()));
        assert_eq!(
            read("case F\nrule 0"),
            Err("line 2: not hexadecimal".into())
        );
        for count in ["16777217", "18446744073709551615"] {
            assert_eq!(
                read(&format!("case F\nrule 00*{count}")),
                Err("line 2: a part of more than 16777216 bytes".into())
            );
        }
        assert_eq!(
            read("case F\ngroup 00"),
            Err("line 2: group doesn't belong here".into())
        );
    }
}
